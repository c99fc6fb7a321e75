/* connect SOCKET FILE COMMAND..: connects to a socket of the file system. Runs the command with
 * that connection as its open file FILE, a number, for QEMU's x-pci-proxy-dev,fd=FILE. */
#include <stdio.h>
#include <stdlib.h>
#include <string.h>
#include <sys/socket.h>
#include <sys/un.h>
#include <unistd.h>

static int fail(const char *what) {
    perror(what);
    return 1;
}

int main(int argc, char **argv) {
    struct sockaddr_un address = {.sun_family = AF_UNIX};
    if (argc < 4 || strlen(argv[1]) >= sizeof address.sun_path) {
        fprintf(stderr, "usage: connect SOCKET FILE COMMAND..\n");
        return 2;
    }
    memcpy(address.sun_path, argv[1], strlen(argv[1]));
    int file = atoi(argv[2]), line = socket(AF_UNIX, SOCK_STREAM, 0);
    if (line < 0 || connect(line, (const struct sockaddr *)&address, sizeof address)) return fail(argv[1]);
    if (line != file && (dup2(line, file) < 0 || close(line))) return fail(argv[2]);
    execvp(argv[3], argv + 3);
    return fail(argv[3]);
}
