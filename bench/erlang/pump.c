/* pump IN OUT: reads IN whole, lets it through a child `cat` by two pipes and `poll`, and writes what comes to OUT: what a program at least takes for it. */
#include <fcntl.h>
#include <poll.h>
#include <stdlib.h>
#include <sys/stat.h>
#include <sys/wait.h>
#include <unistd.h>

int main(int count, char **words) {
    struct stat found;
    int file = count == 3 ? open(words[1], O_RDONLY) : -1;
    if (file < 0 || fstat(file, &found)) return 1;
    size_t size = found.st_size, sent = 0, came = 0;
    char *in = malloc(size), *out = malloc(size + 65536);
    for (size_t at = 0; at < size;) {
        ssize_t some = read(file, in + at, size - at);
        if (some <= 0) return 1;
        at += some;
    }
    int to[2], from[2];
    if (pipe(to) || pipe(from)) return 1;
    pid_t child = fork();
    if (!child) {
        dup2(to[0], 0), dup2(from[1], 1);
        close(to[0]), close(to[1]), close(from[0]), close(from[1]);
        execlp("cat", "cat", NULL);
        _exit(127);
    }
    close(to[0]), close(from[1]);
    fcntl(to[1], F_SETFL, O_NONBLOCK), fcntl(from[0], F_SETFL, O_NONBLOCK);
    while (came < size) {
        struct pollfd ends[2] = {{from[0], POLLIN, 0}, {sent < size ? to[1] : -1, POLLOUT, 0}};
        if (poll(ends, 2, 10000) <= 0) return 2;
        if (ends[0].revents) {
            ssize_t some = read(from[0], out + came, 65536);
            if (some == 0) break;
            if (some > 0) came += some;
        }
        if (ends[1].revents) {
            ssize_t some = write(to[1], in + sent, size - sent < 65536 ? size - sent : 65536);
            if (some > 0) sent += some;
        }
    }
    close(to[1]), waitpid(child, NULL, 0);
    int saved = open(words[2], O_WRONLY | O_CREAT | O_TRUNC, 0644);
    for (size_t at = 0; at < came;) {
        ssize_t some = write(saved, out + at, came - at);
        if (some <= 0) return 3;
        at += some;
    }
    return came != size;
}
