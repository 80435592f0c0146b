#include "registered.h"
#include "numbers.h"
#include "rings.h"
#include "trace.h"
#include "watch.h"

#include <errno.h>
#include <fcntl.h>
#include <linux/io_uring.h>
#include <stdlib.h>
#include <string.h>
#include <sys/mman.h>
#include <sys/uio.h>
#include <unistd.h>

enum { PAGE = 4096, AT_ONCE = 256 };
/* Buffers are pinned: a trace of few bytes may have more of them than there is memory. */
#define MOST_PINNED (1ULL << 31)

static int *descriptions;
static u32 *description_uses; /* by rings that are not there yet, and by the table */
static u64 pinned;
static u32 *ring_uses;

/* --- Descriptions of the start ------------------------------------------------------------------
 */

void hold_descriptions(int *opened)
{
	descriptions = opened;
	description_uses = allocate(trace.description_count * sizeof *description_uses);
	for (u32 at = 0; at < trace.description_count; at++)
		description_uses[at] = 1;
	for (u32 ring = 0; ring < trace.ring_count; ring++) {
		const struct ring_of_trace *it = &trace.rings[ring];
		for (u32 at = 0; at < it->full_count; at++) {
			if (it->full[at].source.kind == OF_START)
				description_uses[it->full[at].source.number]++;
		}
	}
}

static void leave_description(u32 number)
{
	if (!--description_uses[number])
		close(descriptions[number]);
}

void let_descriptions_go(void)
{
	for (u32 at = 0; at < trace.description_count; at++)
		leave_description(at);
}

/* --- Slots and buffers --------------------------------------------------------------------------
 */

static void register_slots(u32 ring)
{
	u32 count = trace.rings[ring].slot_count;
	int *files = allocate(count * sizeof *files);

	memset(files, 0xff, count * sizeof *files);
	if (count && register_with(ring, IORING_REGISTER_FILES, files, count) < 0)
		die("files cannot be registered: %s", strerror(errno));
	free(files);
}

static u64 within_page(const struct buffer *it)
{
	return it->address & (PAGE - 1);
}

/* Memory of a buffer: where the recorded one lay within its page, so that the same pages are used.
 */
static void make_buffer(struct buffer *it)
{
	void *memory = mmap(NULL, within_page(it) + it->length, PROT_READ | PROT_WRITE,
			    MAP_PRIVATE | MAP_ANONYMOUS, -1, 0);

	if (memory == MAP_FAILED)
		die("a buffer of %u bytes: %s", it->length, strerror(errno));
	it->memory = (u8 *)memory + within_page(it);
	pinned += it->length;
}

static void free_buffer(struct buffer *it)
{
	if (!it->memory)
		return;
	munmap(it->memory - within_page(it), within_page(it) + it->length);
	it->memory = NULL;
	pinned -= it->length;
}

static void test_pinned(const struct ring_of_trace *ring)
{
	u64 sum = pinned;

	for (u32 at = 0; at < ring->buffer_count; at++)
		sum += ring->buffers[at].length;
	if (sum > MOST_PINNED)
		die("the buffers have %llu bytes together, and at most %llu can be pinned",
		    (unsigned long long)sum, (unsigned long long)MOST_PINNED);
}

static void register_buffers(u32 number)
{
	struct ring_of_trace *ring = &trace.rings[number];
	struct iovec *buffers = allocate(ring->buffer_count * sizeof *buffers);
	u32 tries = 0;
	long fault = 0;

	test_pinned(ring);
	for (u32 at = 0; at < ring->buffer_count; at++) {
		struct buffer *it = &ring->buffers[at];
		if (it->length)
			make_buffer(it);
		buffers[at] = (struct iovec){ it->memory, it->length };
	}
	if (ring->buffer_count) {
		do
			fault = register_with(number, IORING_REGISTER_BUFFERS, buffers,
					      ring->buffer_count);
		while (fault < 0 && is_tried_again(&tries));
	}
	/* Out of memory that may be locked is a matter of the system's, not of the trace. */
	if (fault < 0)
		die_with(errno == ENOMEM ? STATUS_UNTRIED : STATUS_FAILED,
			 "buffers cannot be registered: %s", strerror(errno));
	free(buffers);
}

/* --- Rings --------------------------------------------------------------------------------------
 */

void make_ring(u32 ring)
{
	if (is_open(ring))
		return;
	open_ring(ring);
	register_slots(ring);
	register_buffers(ring);
	go_on();
}

void end_ring(u32 ring)
{
	if (!is_open(ring))
		return;
	close_ring(ring);
	for (u32 at = 0; at < trace.rings[ring].buffer_count; at++)
		free_buffer(&trace.rings[ring].buffers[at]);
}

/* --- What full slots get -------------------------------------------------------------------------
 */

int held_by(const struct holder *it)
{
	if (it->kind == OF_START)
		return descriptions[it->number];
	if (it->kind == OF_DESCRIPTOR)
		return fcntl((int)it->number, F_GETFD) < 0 ? -1 : (int)it->number;
	if (!shows_slots())
		die_with(STATUS_UNTRIED, "the kernel does not show what a slot of a ring holds");
	make_ring(it->ring);
	int opened = slot_file(it->ring, it->number);
	if (opened < 0 && opened != -EBADF)
		die("slot %u of ring %u: %s", it->number, it->ring, strerror(-opened));
	return move_up(opened);
}

/* How many of some full slots follow each other without a gap, as far as they are put at once. */
static u32 run_of(const struct full_slot *first, u32 count)
{
	u32 at = 1;

	while (at < count && at < AT_ONCE && first[at].slot == first->slot + at)
		at++;
	return at;
}

static void put_slots(u32 ring, const struct full_slot *first, u32 count)
{
	int files[AT_ONCE];
	struct io_uring_files_update update = { .offset = first->slot,
						.fds = (u64)(uintptr_t)files };

	for (u32 at = 0; at < count; at++)
		files[at] = held_by(&first[at].source);
	if (register_with(ring, IORING_REGISTER_FILES_UPDATE, &update, count) != (long)count)
		die("files cannot be registered: %s", strerror(errno));
	for (u32 at = 0; at < count; at++) {
		if (first[at].source.kind == OF_SLOT && files[at] >= 0)
			close(files[at]);
		if (first[at].source.kind == OF_START)
			leave_description(first[at].source.number);
	}
	go_on();
}

void put_slot(u32 ring, u32 slot, int file)
{
	struct io_uring_files_update update = { .offset = slot, .fds = (u64)(uintptr_t)&file };

	make_ring(ring);
	if (register_with(ring, IORING_REGISTER_FILES_UPDATE, &update, 1) != 1)
		die("slot %u of ring %u cannot be registered: %s", slot, ring, strerror(errno));
}

void fill_slots(u32 ring)
{
	const struct ring_of_trace *it = &trace.rings[ring];

	for (u32 at = 0, count; at < it->full_count; at += count) {
		count = run_of(&it->full[at], it->full_count - at);
		put_slots(ring, &it->full[at], count);
	}
}

/* --- Which rings are used ------------------------------------------------------------------------
 */

/* Each ring that a place uses, as often as it does. */
static void each_ring(u32 place, void (*each)(u32 ring))
{
	const struct holder *it;

	for (u32 at = 0; (it = holder_at(place, at)); at++) {
		if (it->kind == OF_SLOT)
			each(it->ring);
	}
	if (ring_of(place) != NO_RING)
		each(ring_of(place));
}

static void count_use(u32 ring)
{
	ring_uses[ring]++;
}

static void leave_ring(u32 ring)
{
	if (!--ring_uses[ring] && trace.rings[ring].has_ended)
		end_ring(ring);
}

void count_uses(void)
{
	ring_uses = allocate(trace.ring_count * sizeof *ring_uses);
	for (u32 place = 0; place < trace.places; place++)
		each_ring(place, count_use);
}

void leave_place(u32 place)
{
	each_ring(place, leave_ring);
}
