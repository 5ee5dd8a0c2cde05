/* The program at the other end of two pipes: a line in, its reply out, and many lines at once. The program is the argument, or else radixvm on
   the PATH: cc -o /tmp/pipe examples/pipe.c && /tmp/pipe $(examples/program.sh) */
#include <stdio.h>
#include <stdlib.h>
#include <sys/wait.h>
#include <unistd.h>

static FILE *to, *from;

/* Prints the replies to some lines of events: all of them are written, and flushed once, before the first reply is read. A pipe holds only so
   much: ask for a thousand at once, not for a million. */
static void ask(int count, const char *const lines[]) {
    char reply[512];
    for (int i = 0; i < count; i++) fprintf(to, "%s\n", lines[i]);
    fflush(to);
    for (int i = 0; i < count; i++) {
        if (!fgets(reply, sizeof reply, from)) exit(1);
        fputs(reply, stdout);
    }
}

int main(int words, char **word) {
    int in[2], out[2], status;
    if (pipe(in) || pipe(out)) return 1;
    pid_t child = fork();
    if (child < 0) return 1;
    if (child == 0) {
        dup2(in[0], 0);
        dup2(out[1], 1);
        close(in[0]), close(in[1]), close(out[0]), close(out[1]);
        execlp(words > 1 ? word[1] : "radixvm", "radixvm", "run", (char *)0);
        _exit(127);
    }
    close(in[0]), close(out[1]);
    to = fdopen(in[1], "w");
    from = fdopen(out[0], "r");
    fprintf(to, "vm 1 4\n"); /* no event, so no reply */
    ask(1, (const char *[]){"c0! mmap 0x10000 4096 rw- pfa"});
    ask(3, (const char *[]){"c0! store 0x10004 41", "c0! load 0x10004", "c0! load 0x10005"});
    fclose(to);
    waitpid(child, &status, 0);
    return WEXITSTATUS(status);
}
