// The peer of bench/search: answers the questions of a draw by CaDiCaL as an incremental library.
//
// Reads from standard input an iCNF text: a line `p inccnf`, clauses that each end with 0, and
// questions `a LITERALS 0`: have the clauses before it a solution with these literals true? One
// solver with its default options answers all of them, the literals being its assumptions. Prints
// for each question in order 1 or 0, and a line feed. With the word --version it prints the
// library's version alone. Status: 0 answered, 1 the text has not this form, 2 the solver gave up.

#include <cadical.hpp>

#include <cstdio>
#include <cstdlib>
#include <cstring>
#include <string>

static std::string read_all(FILE *source) {
    std::string text;
    char piece[1 << 16];
    while (size_t count = fread(piece, 1, sizeof piece, source)) text.append(piece, count);
    return text;
}

static int answer_all(const std::string &text, std::string &answers) {
    CaDiCaL::Solver solver;
    bool is_question = false;
    const char *at = text.c_str();
    while (*(at += strspn(at, " \n"))) {
        if (*at == 'p') {
            at += strcspn(at, "\n");
        } else if (*at == 'a') {
            is_question = true;
            ++at;
        } else {
            char *after;
            const int literal = static_cast<int>(strtol(at, &after, 10));
            if (after == at) return 1;
            at = after;
            if (!is_question) {
                solver.add(literal);
            } else if (literal != 0) {
                solver.assume(literal);
            } else {
                const int status = solver.solve();
                if (status != 10 && status != 20) return 2;
                answers += status == 10 ? '1' : '0';
                is_question = false;
            }
        }
    }
    return 0;
}

int main(int count, char **words) {
    if (count == 2 && !strcmp(words[1], "--version")) {
        puts(CaDiCaL::Solver::version());
        return 0;
    }
    std::string answers;
    const int status = answer_all(read_all(stdin), answers);
    if (status == 0) puts(answers.c_str());
    return status;
}
