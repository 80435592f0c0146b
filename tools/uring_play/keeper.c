#include "keeper.h"
#include "nodes.h"
#include "numbers.h"
#include "tree.h"
#include "watch.h"

#include <errno.h>
#include <limits.h>
#include <signal.h>
#include <string.h>
#include <sys/prctl.h>
#include <sys/socket.h>
#include <sys/wait.h>
#include <unistd.h>

/* What is asked: a path whose node is to be held, or of which node a number is. */
struct question {
	u64 node;
	dev_t device;
	ino_t number;
	char path[PATH_MAX]; /* empty where a number is asked for */
};
struct answer {
	u64 node;
	bool is_known;
};

static int asked = -1; /* the player's end of the socket */
static pid_t keeper;

static void __attribute__((noreturn)) keep(int socket)
{
	struct question it;

	signal(SIGINT, SIG_IGN);
	signal(SIGTERM, SIG_IGN);
	signal(SIGHUP, SIG_IGN);
	while (recv(socket, &it, sizeof it, 0) > 0) {
		struct stat status = { .st_dev = it.device, .st_ino = it.number };
		struct answer answer = { 0 };
		if (*it.path)
			hold_node(it.path, it.node);
		else
			answer.is_known = node_of(&status, &answer.node);
		if (send(socket, &answer, sizeof answer, MSG_NOSIGNAL) < 0)
			break;
	}
	_exit(0);
}

void start_keeper(void)
{
	int ends[2];

	if (options.no_nodes)
		return;
	if (socketpair(AF_UNIX, SOCK_SEQPACKET | SOCK_CLOEXEC, 0, ends))
		die("no socket can be made: %s", strerror(errno));
	int own = move_up(ends[0]), other = move_up(ends[1]);
	pid_t parent = getpid();
	keeper = fork();
	if (keeper < 0)
		die("there is no process that holds nodes: %s", strerror(errno));
	if (keeper) {
		close(other);
		asked = own;
		return;
	}
	at_death = NULL;
	close(own);
	prctl(PR_SET_PDEATHSIG, SIGKILL);
	if (getppid() != parent)
		_exit(0);
	keep(other);
}

bool is_kept_apart(void)
{
	return asked >= 0;
}

static struct answer ask(const struct question *it)
{
	size_t size = offsetof(struct question, path) + strlen(it->path) + 1;
	struct answer answer = { 0 };
	ssize_t done;

	do {
		go_on();
		done = send(asked, it, size, MSG_NOSIGNAL);
	} while (done < 0 && errno == EINTR);
	while (done >= 0) {
		go_on();
		done = recv(asked, &answer, sizeof answer, 0);
		if (done == (ssize_t)sizeof answer)
			return answer;
		if (done < 0 && errno == EINTR)
			done = 0;
		else
			break;
	}
	die("the process that holds nodes has gone");
}

void keep_node(const char *path, u64 node)
{
	struct question it = { .node = node };

	if (strlen(path) >= sizeof it.path)
		return;
	strcpy(it.path, path);
	ask(&it);
}

bool kept_node_of(dev_t device, ino_t number, u64 *node)
{
	struct question it = { .device = device, .number = number };
	struct answer answer = ask(&it);

	*node = answer.node;
	return answer.is_known;
}

void end_keeper(void)
{
	if (asked < 0)
		return;
	close(asked);
	asked = -1;
	kill(keeper, SIGKILL);
	while (waitpid(keeper, NULL, 0) < 0 && errno == EINTR)
		;
}
