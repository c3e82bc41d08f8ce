/* driver POINT..: hits these points one after the other, and prints what each hit came to: `go`, or `return(TEXT)`. `held` runs it. */
#include "paklour.h"

#include <stdio.h>

int main(int count, char **words) {
    char link[512], text[128];
    setvbuf(stdout, NULL, _IOLBF, 0);
    for (int i = 1; i < count; i++) {
        snprintf(link, sizeof link, "/.paklour/%s", words[i]);
        if (paklour_read(link, text)) printf("return(%s)\n", text);
        else puts("go");
    }
    return 0;
}
