/* zrelay - a gateway that does nothing: passes each unit on to a target, and its reply back; a unit whose tag is listed it answers itself with a fixed
   reply. One thread a connection, one link each. Its system calls are the gateway's but for a futex a request: a read, a send, a wait and a read at the target, and a send.
   Build: gcc -O2 -Wall -pthread -o zrelay zrelay.c      Use: zrelay PORT TARGETPORT TAGHEX=REPLYHEX ...   (tag as zfloor's). Each unit and each reply has to
   come by one read, of at most 4096 octets. */
#define _GNU_SOURCE
#include <stdio.h>
#include <stdlib.h>
#include <string.h>
#include <unistd.h>
#include <poll.h>
#include <pthread.h>
#include <sys/socket.h>
#include <netinet/in.h>
#include <netinet/tcp.h>
enum { MOST = 4096 };
typedef struct { unsigned tag; unsigned char b[MOST]; size_t n; } R; static R rs[16]; static int nr, target;
static int at(int port, int listens) { int s = socket(AF_INET, SOCK_STREAM, 0), one = 1; struct sockaddr_in a;
    memset(&a, 0, sizeof a); a.sin_family = AF_INET; a.sin_port = htons((unsigned short)port); a.sin_addr.s_addr = htonl(INADDR_LOOPBACK);
    setsockopt(s, SOL_SOCKET, SO_REUSEADDR, &one, sizeof one); setsockopt(s, IPPROTO_TCP, TCP_NODELAY, &one, sizeof one);
    if (listens ? bind(s, (struct sockaddr *)&a, sizeof a) || listen(s, 64) : connect(s, (struct sockaddr *)&a, sizeof a)) { perror("zrelay"); exit(1); }
    return s; }
/* the reply of the target to a unit: its octets, or 0 */
static ssize_t passed(int link, const unsigned char *unit, size_t n, unsigned char *reply) { struct pollfd p = {link, POLLIN, 0};
    if (send(link, unit, n, MSG_NOSIGNAL) != (ssize_t)n) return 0;
    while (poll(&p, 1, 20) == 0) ;
    n = (size_t)recv(link, reply, MOST, 0); return (ssize_t)n > 0 ? (ssize_t)n : 0; }
static void *serve(void *c) { int s = (int)(long)c, link = at(target, 0), i; unsigned char unit[MOST], reply[MOST]; ssize_t n, m;
    while ((n = recv(s, unit, MOST, 0)) > 0) { unsigned tag = unit[0]; const unsigned char *o = reply; if ((tag & 31) == 31) tag = tag << 8 | unit[1];
        for (m = 0, i = 0; i < nr; i++) if (rs[i].tag == tag) { o = rs[i].b; m = (ssize_t)rs[i].n; }
        if (!m) m = passed(link, unit, (size_t)n, reply);
        if (!m || send(s, o, (size_t)m, MSG_NOSIGNAL) != m) break; }
    close(link); close(s); return 0; }
int main(int argc, char **argv) { int l, c, i, one = 1; size_t k;
    if (argc < 3) { fprintf(stderr, "use: zrelay PORT TARGETPORT TAGHEX=REPLYHEX ...\n"); return 2; }
    for (i = 3; i < argc && nr < 16; i++) { char *q = strchr(argv[i], '='); R *r = &rs[nr]; if (!q) continue; *q++ = 0; r->tag = (unsigned)strtoul(argv[i], 0, 16);
        for (k = 0; k + 1 < strlen(q) && r->n < MOST; k += 2) { char x[3] = {q[k], q[k + 1], 0}; r->b[r->n++] = (unsigned char)strtol(x, 0, 16); } nr++; }
    target = atoi(argv[2]); l = at(atoi(argv[1]), 1);
    while ((c = accept(l, 0, 0)) >= 0) { pthread_t t; setsockopt(c, IPPROTO_TCP, TCP_NODELAY, &one, sizeof one); if (!pthread_create(&t, 0, serve, (void *)(long)c)) pthread_detach(t); }
    return 0; }
