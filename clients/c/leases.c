/* A lease by lines alone: takes one of two leases of a store that a hub serves, waits where both are taken, and gives it back.
   cc -o leases leases.c && ./leases STORE.sock CLIENT    (the leases are the variables 0 and 1; CLIENT is a number, not 0) */
#include <stdio.h>
#include <stdlib.h>
#include <string.h>
#include <sys/socket.h>
#include <sys/un.h>
#include <unistd.h>

/* If this lease is free: writes the client into it, and leaves its number in register 0. Else retries. */
#define TAKE(lease) "{\"seq\":[{\"read\":[" lease ",1]},{\"when\":[1,\"retry\",\"skip\"]},{\"put\":[1,%d]},{\"write\":[" lease ",1]},{\"put\":[0," lease "]}]}"

int main(int count, char **words) {
    struct sockaddr_un at = {.sun_family = AF_UNIX};
    int link = socket(AF_UNIX, SOCK_STREAM, 0), me = count == 3 ? atoi(words[2]) : 0, lease;
    char line[65536];
    if (me) strncpy(at.sun_path, words[1], sizeof at.sun_path - 1);
    if (!me) return fputs("leases STORE.sock CLIENT\n", stderr), 2;
    if (connect(link, (struct sockaddr *)&at, sizeof at)) return perror(words[1]), 1;
    FILE *in = fdopen(link, "r"), *out = fdopen(dup(link), "w");
    if (!fgets(line, sizeof line, in)) return 1; /* {"opened":..} */

    fprintf(out, "{\"id\":1,\"do\":{\"orelse\":[" TAKE("0") "," TAKE("1") "]}}\n", me, me);
    if (fflush(out) || !fgets(line, sizeof line, in)) return 1; /* the answer: the lease is ours, and that is durable */
    if (sscanf(line, "{\"id\":1,\"committed\":%*d,\"registers\":[%d", &lease) != 1) return fputs(line, stderr), 1;
    printf("client %d has lease %d\n", me, lease);

    fprintf(out, "{\"id\":2,\"do\":{\"write\":[%d,2]}}\n", lease); /* register 2 is 0 */
    if (fflush(out) || !fgets(line, sizeof line, in)) return 1;
    return strstr(line, "\"committed\"") ? puts("and has given it back") < 0 : 1;
}
