/* Functions of the C library that hand places on closed pages to the kernel where one wouldn't look for it: thrd_sleep, answers of a name server
 * and of who keeps users, which are processes of this test, and the list of a machine's interfaces. */
#define _GNU_SOURCE
#include <arpa/inet.h>
#include <arpa/nameser.h>
#include <net/if.h>
#include <netinet/in.h>
#include <pwd.h>
#include <resolv.h>
#include <sched.h>
#include <signal.h>
#include <sys/ioctl.h>
#include <sys/mount.h>
#include <sys/socket.h>
#include <sys/stat.h>
#include <sys/time.h>
#include <sys/un.h>
#include <threads.h>
#include <time.h>
#include "check.h"
#include "cycle.h"
#include "watch.h"

static void *place(void)
{
    static int at;
    at += 2;
    return ordinary[at];
}

/* It was filled before its page was closed. */
static struct ifconf *filled;

static void on_alarm(int number) { (void)number; }
static int sleeps(void)
{
    struct timespec *left = place();
    if (signal(SIGALRM, on_alarm) == SIG_ERR) return 1;
    if (setitimer(ITIMER_REAL, &(struct itimerval){ .it_value = { 0, 20000 } }, NULL) != 0) return 2;
    return thrd_sleep(&(struct timespec){ 1000, 0 }, left) == -1 && left->tv_sec == 999 ? 0 : 3;
}

static int tells_times(void)
{
    struct timespec *now = place();
    return timespec_get(now, TIME_UTC) == TIME_UTC && now->tv_sec > 0 ? 0 : 1;
}

/* It hands questions back, as answers that say nothing. */
static void answer_all(int file)
{
    unsigned char text[NS_PACKETSZ];
    struct sockaddr_in asker;
    for (;;) {
        socklen_t length = sizeof asker;
        ssize_t came = recvfrom(file, text, sizeof text, 0, (struct sockaddr *)&asker, &length);
        if (came < NS_HFIXEDSZ) _exit(1);
        text[2] |= 0x80; /* an answer, of one who asks others */
        text[3] |= 0x80;
        if (sendto(file, text, (size_t)came, 0, (struct sockaddr *)&asker, length) != came) _exit(1);
    }
}
static int asks(void)
{
    int file = socket(AF_INET, SOCK_DGRAM, 0);
    struct sockaddr_in server = { .sin_family = AF_INET, .sin_addr.s_addr = htonl(INADDR_LOOPBACK) };
    socklen_t length = sizeof server;
    if (file < 0 || bind(file, (struct sockaddr *)&server, length) != 0 || getsockname(file, (struct sockaddr *)&server, &length) != 0) return 1;
    pid_t child = fork();
    if (child == 0) answer_all(file);
    if (res_init() != 0) return 2;
    _res.nscount = 1;
    _res.nsaddr_list[0] = server;
    _res.retry = 1;
    unsigned char question[NS_PACKETSZ], *answer = place();
    int asked = res_mkquery(ns_o_query, "mpgc.example", ns_c_in, ns_t_a, NULL, 0, NULL, question, sizeof question);
    int came = asked > 0 ? res_send(question, asked, answer, 2000) : 0;
    kill(child, SIGKILL);
    return asked > 0 && came == asked && memcmp(answer, question, 2) == 0 ? 0 : 3;
}

/* Who keeps users (nscd) is asked by a socket, where this test may put one for itself alone: else nothing is tried. It answers each question for a
 * user. */
static const struct sockaddr_un kept_at = { AF_UNIX, "/var/run/nscd/socket" };
static int keeper(void)
{
    int file = socket(AF_UNIX, SOCK_STREAM, 0);
    if (unshare(CLONE_NEWNS) != 0 && unshare(CLONE_NEWUSER | CLONE_NEWNS) != 0) return -1;
    if (mount(NULL, "/", NULL, MS_REC | MS_PRIVATE, NULL) != 0 || mount("none", "/var/run", "tmpfs", 0, NULL) != 0) return -1;
    if (mkdir("/var/run/nscd", 0755) != 0 || bind(file, (const struct sockaddr *)&kept_at, sizeof kept_at) != 0) return -1;
    return listen(file, 9) == 0 ? file : -1;
}
static void answer_of_a_user(int client)
{
    enum { BY_NAME, BY_NUMBER };
    static const char text[] = "someone\0x\0about\0/home\0/bin/true";
    struct { int32_t version, type, length; } question;
    struct { int32_t version, is_found, name, password, user, group, about, folder, shell; } head = { 2, 1, 8, 2, 4242, 4243, 6, 6, 10 };
    char key[100];
    if (read(client, &question, sizeof question) != sizeof question || question.length > (int)sizeof key) return;
    if (read(client, key, (size_t)question.length) != question.length || question.type > BY_NUMBER) return;
    if (send(client, &head, sizeof head, MSG_MORE) == sizeof head) (void)!write(client, text, sizeof text);
}
static void answer_of_users(int file)
{
    for (;;) {
        int client = accept(file, NULL, NULL);
        answer_of_a_user(client);
        close(client);
    }
}
static int finds_users(void)
{
    struct passwd one, *found = NULL, *again = NULL;
    int file = keeper();
    if (file < 0) return 0;
    pid_t child = fork();
    if (child == 0) answer_of_users(file);
    int by_name = getpwnam_r("someone", &one, place(), 1000, &found), by_number = getpwuid_r(4242, &one, place(), 1000, &again);
    kill(child, SIGKILL);
    if (by_name != 0 || by_number != 0 || !found || !again) return 1;
    return one.pw_gid == 4243 && strcmp(one.pw_dir, "/home") == 0 ? 0 : 2;
}

/* Its place stands in an object, or outside of all. */
static int lists_interfaces(void)
{
    int file = socket(AF_INET, SOCK_DGRAM, 0);
    struct ifreq seen[2000 / sizeof(struct ifreq)];
    struct ifconf outside = { .ifc_len = sizeof seen, .ifc_req = seen };
    if (file < 0 || ioctl(file, SIOCGIFCONF, &outside) != 0) return 1;
    struct ifconf *inside = filled, other = { .ifc_len = 2000, .ifc_buf = place() };
    if (ioctl(file, SIOCGIFCONF, inside) != 0 || inside->ifc_len != outside.ifc_len) return 2;
    if (ioctl(file, SIOCGIFCONF, &other) != 0 || other.ifc_len != outside.ifc_len) return 3;
    size_t length = (size_t)outside.ifc_len;
    return memcmp(inside->ifc_buf, other.ifc_buf, length) == 0 ? 0 : 4;
}

int main(void)
{
    GC_INIT();
    GC_enable_incremental();
    filled = GC_malloc(2000);
    *filled = (struct ifconf){ .ifc_len = 2000, .ifc_buf = GC_malloc(2000) };
    begin();
    CHECK(ends_well(sleeps, 60));
    CHECK(ends_well(tells_times, 60));
    CHECK(ends_well(asks, 60));
    CHECK(ends_well(lists_interfaces, 60));
    CHECK(ends_well(finds_users, 60));
    end();
    return check_ends();
}
