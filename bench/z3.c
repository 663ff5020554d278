/* z3 where only its library is installed (cc -o z3 bench/z3.c -lz3): answers the SMT-LIB commands of standard input, one a line, as `z3 -in` does. */
#define _POSIX_C_SOURCE 200809L
#include <stdio.h>
#include <string.h>
#include <z3.h>

int main(int count, char **words)
{
    char *line = NULL;
    size_t room = 0;
    Z3_context context = Z3_mk_context(Z3_mk_config());
    if (count == 2 && strcmp(words[1], "--version") == 0) {
        printf("Z3 version %s\n", Z3_get_full_version());
        return 0;
    }
    while (getline(&line, &room, stdin) > 0) {
        fputs(Z3_eval_smtlib2_string(context, line), stdout);
        fflush(stdout);
    }
    return 0;
}
