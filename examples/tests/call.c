/* One call, of any words: call STORE WORD.. Writes the text and the line as the program does, and ends with its status. */
#include "../c/store.h"

#include <stdio.h>

int main(int count, char **words)
{
    struct store store;
    struct pst_answer answer;

    if (count < 2)
        return 2;
    if (!store_map(&store, words[1]))
        return 3;
    int status = store_answer(&store, &answer, (const char *const *)words + 2);
    if (answer.text.length > 0)
        fwrite(answer.text.at, 1, answer.text.length, stdout);
    if (answer.line.length > 0)
        fwrite(answer.line.at, 1, answer.line.length, stderr);
    pst_free(&answer);
    store_close(&store);
    return fflush(stdout) == 0 ? status : 3;
}
