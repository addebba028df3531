/* Runs a program with a standard input that does not wait: a read that finds no bytes yet fails. */
#define _POSIX_C_SOURCE 200809L
#include <fcntl.h>
#include <unistd.h>

int main(int argc, char **argv)
{
    if (argc < 2 || fcntl(STDIN_FILENO, F_SETFL, O_NONBLOCK) == -1)
        return 2;
    execv(argv[1], argv + 1);
    return 2;
}
