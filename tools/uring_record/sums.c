#include "sums.h"
#include "memory.h"
#include "sha256.h"

#include <pthread.h>
#include <signal.h>
#include <stdlib.h>
#include <string.h>
#include <sys/uio.h>

/* So many bytes may wait to be summed. */
#define MOST_WAITING (64ULL << 20)
/* So many ranges one call takes. */
enum { MOST_AT_ONCE = 1024 };

struct read_sum {
	struct read_sum *next;
	struct iovec *vectors; /* where the bytes are, until they are taken */
	u32 count;
	u8 *bytes;
	u64 length;
	bool is_lost; /* they could not be taken */
	bool is_made; /* as all of the queue, it is changed under the lock */
	char text[SHA256_TEXT];
};

static pthread_mutex_t lock = PTHREAD_MUTEX_INITIALIZER;
static pthread_cond_t has_come = PTHREAD_COND_INITIALIZER, has_ended = PTHREAD_COND_INITIALIZER;
static struct read_sum *first, **behind = &first;
static u64 waiting; /* bytes of those that are not made */
/* Those whose bytes are to be taken. */
static struct read_sum *wanted, **behind_wanted = &wanted;
static u32 wanted_count, wanted_vectors;

/* --- The thread ---------------------------------------------------------------------------------
 */

static void make_sum(struct read_sum *sum)
{
	struct sha256 it;

	sha256_begin(&it);
	sha256_add(&it, sum->bytes, sum->length);
	sha256_end(&it, sum->text);
	free(sum->bytes);
}

/* Takes the next one out of the queue, which is locked. */
static struct read_sum *take_next(void)
{
	struct read_sum *sum;

	while (!first)
		pthread_cond_wait(&has_come, &lock);
	sum = first;
	first = sum->next;
	if (!first)
		behind = &first;
	return sum;
}

static void *make_sums(void *nothing)
{
	pthread_mutex_lock(&lock);
	for (;;) {
		struct read_sum *sum = take_next();
		pthread_mutex_unlock(&lock);
		make_sum(sum);
		pthread_mutex_lock(&lock);
		waiting -= sum->length;
		sum->is_made = true;
		pthread_cond_signal(&has_ended);
	}
	return nothing;
}

/* Starts the thread, once; it takes no signal. */
static void start_thread(void)
{
	static bool is_started;
	sigset_t all, before;
	pthread_t thread;

	if (is_started)
		return;
	is_started = true;
	sigfillset(&all);
	pthread_sigmask(SIG_SETMASK, &all, &before);
	int fault = pthread_create(&thread, NULL, make_sums, NULL);
	pthread_sigmask(SIG_SETMASK, &before, NULL);
	if (fault)
		die("there is no thread for sums: %s", strerror(fault));
	pthread_detach(thread);
}

/* --- What is to be summed -----------------------------------------------------------------------
 */

/* Whether there is room for so many more bytes, which is taken. */
static bool take_room(u64 length)
{
	pthread_mutex_lock(&lock);
	bool has_room = waiting + length <= MOST_WAITING;
	if (has_room)
		waiting += length;
	pthread_mutex_unlock(&lock);
	return has_room;
}

static void put_into_queue(struct read_sum *sum)
{
	pthread_mutex_lock(&lock);
	sum->next = NULL;
	*behind = sum;
	behind = &sum->next;
	pthread_cond_signal(&has_come);
	pthread_mutex_unlock(&lock);
}

struct read_sum *begin_sum(const struct iovec *vectors, u32 count, u64 length)
{
	u32 used = 0;

	if (!take_room(length))
		return NULL;
	struct read_sum *sum = allocate(sizeof *sum);
	sum->bytes = allocate(length);
	sum->length = length;
	sum->vectors = allocate(count * sizeof *vectors);
	for (u64 left = length; left && used < count; used++) {
		sum->vectors[used] = vectors[used];
		sum->vectors[used].iov_len = min64(vectors[used].iov_len, left);
		left -= sum->vectors[used].iov_len;
	}
	sum->count = used;
	*behind_wanted = sum;
	behind_wanted = &sum->next;
	wanted_count++;
	wanted_vectors += used;
	return sum;
}

/* Takes the bytes of all with one call; false where not all of them came. */
static bool take_at_once(pid_t thread)
{
	struct iovec here[MOST_AT_ONCE], there[MOST_AT_ONCE];
	u32 sums = 0, vectors = 0;
	u64 length = 0;

	if (wanted_count > MOST_AT_ONCE || wanted_vectors > MOST_AT_ONCE)
		return false;
	for (const struct read_sum *it = wanted; it; it = it->next) {
		here[sums++] = (struct iovec){ it->bytes, it->length };
		memcpy(there + vectors, it->vectors, it->count * sizeof *there);
		vectors += it->count;
		length += it->length;
	}
	memory_reads++;
	return process_vm_readv(thread, here, sums, there, vectors, 0) == (ssize_t)length;
}

void take_summed(pid_t thread)
{
	bool is_whole = wanted && take_at_once(thread);

	if (wanted)
		start_thread();
	for (struct read_sum *it = wanted, *next; it; it = next) {
		next = it->next;
		it->is_lost = !is_whole && !fetch_gathered(thread, it->vectors, it->count,
							   it->bytes, it->length);
		free(it->vectors);
		put_into_queue(it);
	}
	wanted = NULL;
	behind_wanted = &wanted;
	wanted_count = wanted_vectors = 0;
}

bool is_made(const struct read_sum *sum)
{
	if (!sum)
		return true;
	pthread_mutex_lock(&lock);
	bool is_done = sum->is_made;
	pthread_mutex_unlock(&lock);
	return is_done;
}

const char *text_of_sum(const struct read_sum *sum)
{
	pthread_mutex_lock(&lock);
	while (!sum->is_made)
		pthread_cond_wait(&has_ended, &lock);
	pthread_mutex_unlock(&lock);
	return sum->is_lost ? NULL : sum->text;
}

void free_sum(struct read_sum *sum)
{
	if (sum)
		text_of_sum(sum);
	free(sum);
}
