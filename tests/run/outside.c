/* usage: outside give SOCKET | take SOCKET
 *
 * "take" runs without the tool, and begins first. "give" is run by the tool, sends a pending fence and its environment
 * over a socket, and kills the service. No process outside of the run sees the fence signal, and no process is killed that
 * only waits or used the service before. */
#include "service.h"
#include <sys/un.h>

enum { WORD = 512, A_MOMENT = 200, A_WHILE = 1500 };

static const char *const VARIABLES[] = { "BIMPHLAI_RUN", "LD_PRELOAD" };

static int open_socket(const char *path, int (*use)(int, const struct sockaddr *, socklen_t))
{
    struct sockaddr_un name = { .sun_family = AF_UNIX };
    int made = socket(AF_UNIX, SOCK_STREAM | SOCK_CLOEXEC, 0);

    snprintf(name.sun_path, sizeof name.sun_path, "%s", path);
    return use(made, (struct sockaddr *)&name, sizeof name) == 0 ? made : -1;
}

static void give(const char *path)
{
    int t = timeline(), f = fence(t, 1), taker = open_socket(path, connect);
    pid_t found[MOST];
    int count = service(getppid(), getpid(), found);
    char byte;

    HOLDS(count > 1);
    EXPECT(hand_over(taker, f), 0);
    for (int i = 0; i < 2; i++) {
        char word[WORD] = "";
        snprintf(word, sizeof word, "%s", getenv(VARIABLES[i]));
        EXPECT(send(taker, word, sizeof word, MSG_NOSIGNAL), WORD);
    }
    EXPECT(recv(taker, &byte, 1, 0), 1);
    for (int i = 1; i < count; i++)
        if (is_named(found[i], "bimphlai-run"))
            kill(found[i], SIGKILL);
    pause_for(2 * SOON);
}

/* Uses the service, and continues without it. */
static void use_and_part(const char *told)
{
    int t = timeline();

    if (t >= 0 && close(t) == 0)
        execle("/proc/self/exe", "outside", "wait", told, (char *)NULL, (char *[]){ NULL });
    _exit(1);
}

static void say_and_wait(const char *told)
{
    if (write(atoi(told), "", 1) == 1)
        pause_for(2 * SOON);
    _exit(1);
}

/* Starts a process that has used the service and has disconnected. */
static pid_t begin_former_user(char words[2][WORD])
{
    int told[2];
    char byte, number[16];

    EXPECT(pipe(told), 0);
    snprintf(number, sizeof number, "%d", told[1]);
    pid_t child = fork();
    if (child == 0) {
        for (int i = 0; i < 2; i++)
            setenv(VARIABLES[i], words[i], 1);
        execl("/proc/self/exe", "outside", "use", number, (char *)NULL);
        _exit(1);
    }
    close(told[1]);
    EXPECT(read(told[0], &byte, 1), 1);
    close(told[0]);
    return child;
}

static void take(const char *path)
{
    int listener = open_socket(path, bind), how;
    char words[2][WORD], byte;

    EXPECT(listen(listener, 1), 0);
    int giver = accept(listener, NULL, NULL), f = take_over(giver, 0);
    HOLDS(f >= 0);
    for (int i = 0; i < 2; i++)
        EXPECT(recv(giver, words[i], WORD, MSG_WAITALL), WORD);
    pid_t child = begin_former_user(words);
    /* The service notices that the process has disconnected. */
    pause_for(A_MOMENT);
    EXPECT(send(giver, "", 1, MSG_NOSIGNAL), 1);
    /* The giver has ended. */
    EXPECT(recv(giver, &byte, 1, 0) > 0, 0);
    EXPECT(ready(f, POLLIN, A_WHILE), 0);
    EXPECT(waitpid(child, &how, WNOHANG), 0);
    kill(child, SIGKILL);
    waitpid(child, &how, 0);
}

int main(int argc, char **argv)
{
    const char *what = argc > 1 ? argv[1] : "", *word = argc > 2 ? argv[2] : "";

    give_up_after(30);
    if (strcmp(what, "give") == 0)
        give(word);
    else if (strcmp(what, "take") == 0)
        take(word);
    else if (strcmp(what, "use") == 0)
        use_and_part(word);
    else
        say_and_wait(word);
    return report("outside");
}
