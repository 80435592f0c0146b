#include "table.h"
#include "made.h"
#include "meetings.h"
#include "notes.h"
#include "sets.h"
#include "start.h"

#include <fcntl.h>
#include <stdlib.h>
#include <unistd.h>

/* What the replay has at a number. */
enum place_state { PLACE_FREE, PLACE_TAKEN, PLACE_FILE };
struct place {
	enum place_state state;
	struct opened *opened;
	pid_t process;		     /* whose descriptor it was learned from */
	bool is_closing;	     /* an entry in flight closes it */
	const struct opened *closed; /* what that entry found there */
	u64 batch;		     /* the call in which the number was looked at */
	enum leads leads;	     /* and where it led */
};
static struct place places[MOST_TABLE];
static u64 batch = 1;
/* How often the table came to be otherwise than the numbers of opens were reckoned with; and
 * whether some of this call are. */
static u64 surprises;
static bool is_reckoned;

/* A file that loses its name at once, for numbers that are taken by what is no file of the tree. */
static const char taken_name[] = "/.uring_record.taken";

void begin_batch(void)
{
	batch++;
	is_reckoned = false;
}

void start_place(int number, i64 description)
{
	struct place *place = &places[number];

	if (description < 0) {
		place->state = PLACE_TAKEN;
		trace.table_taken[number] = true;
		return;
	}
	place->state = PLACE_FILE;
	place->process = home_process();
	place->opened = hold(trace.descriptions[description].opened);
	trace.table[number] = (u32)description + 1;
}

struct opened *opened_at(int number)
{
	return number < 0 || (u32)number >= trace.table_size ? NULL : places[number].opened;
}

int number_with(int copy, const struct stat *status)
{
	for (u32 number = 0; number < trace.table_size; number++) {
		if (is_copy_of(places[number].opened, copy, status))
			return (int)number;
	}
	return -1;
}

bool is_taken(int number)
{
	return number >= 0 && (u32)number < trace.table_size && places[number].state != PLACE_FREE;
}

/* A number comes to be free in the replay before the entries of this call, or is so no more. */
static void changes_free(void)
{
	surprises += is_reckoned;
}

/* Closes a number in the replay. */
static void close_number(int number)
{
	changes_free();
	if (options.format == 3)
		set_nothing(of_number(number));
	else
		make_close(our_ring(), 0, number);
	places[number].opened = release(places[number].opened);
	places[number].state = PLACE_FREE;
}

/* A number has what is no file of the tree, in place of what the replay has there. */
static void leave_number(int number)
{
	if (options.format != 3) {
		close_number(number);
		return;
	}
	set_taken(of_number(number));
	places[number].opened = release(places[number].opened);
	places[number].state = PLACE_TAKEN;
}

/* Makes an open of a path at a number: lower ones that are free are taken meanwhile. */
static void make_open_at(int number, const char *path, u32 flags)
{
	int lower[MOST_TABLE];
	u32 count = 0;

	give_up_numbers();
	for (int at = 0; at < number; at++) {
		if (places[at].state != PLACE_FREE)
			continue;
		make_open(our_ring(), 0, path, flags, at);
		lower[count++] = at;
	}
	make_open(our_ring(), 0, path, flags, number);
	while (count)
		make_close(our_ring(), 0, lower[--count]);
}

/* Opens a path at a number. The descriptor becomes its own. */
static void open_number(pid_t process, int number, const char *path, int copy)
{
	make_open_at(number, path, (u32)fcntl(copy, F_GETFL) & (O_ACCMODE | O_APPEND));
	places[number].process = process;
	places[number].opened = new_opened(copy, 0);
	places[number].state = PLACE_FILE;
}

/* Opens the file of a descriptor of the recorder at a number in place of what is there; false where
 * neither a path nor the replay has it. */
static bool open_at_number(pid_t process, int number, int copy)
{
	struct place *place = &places[number];

	if (options.format == 3) {
		struct opened *opened = set_opened(of_number(number), copy);
		if (opened) {
			changes_free();
			release(place->opened);
			*place = (struct place){ .state = PLACE_FILE,
						 .opened = opened,
						 .process = process,
						 .batch = place->batch };
		}
		return opened;
	}
	char *name = name_in_replay(copy);
	if (!name)
		return false;
	if (place->state != PLACE_FREE)
		close_number(number);
	changes_free();
	open_number(process, number, name, copy);
	free(name);
	return true;
}

/* Makes a number that leads elsewhere than in the replay lead there. */
static enum leads correct_number(pid_t process, int number)
{
	struct place *place = &places[number];
	int copy = copy_descriptor(process, number);

	if (copy < 0) {
		if (place->state != PLACE_FREE)
			close_number(number);
		return LEADS_NOWHERE;
	}
	if (open_at_number(process, number, copy))
		return LEADS_TO_FILE;
	/* (a file that lost its name is as good as any that the replay may have here) */
	bool is_kept = place->state == PLACE_FILE && is_same(copy, place->opened->descriptor) &&
		       !has_other_append(place->opened);
	if (place->state == PLACE_FILE && !is_kept)
		leave_number(number);
	close(copy);
	return is_kept ? LEADS_TO_FILE : LEADS_ELSEWHERE;
}

enum leads ensure_number(pid_t process, int number)
{
	trace.uses_table = true;
	if (number < 0)
		return LEADS_NOWHERE;
	if ((u32)number >= trace.table_size)
		return is_open(process, number) ? LEADS_ELSEWHERE : LEADS_NOWHERE;
	struct place *place = &places[number];
	if (place->is_closing &&
	    (!is_open(process, number) || leads_to(process, number, place->closed)))
		return LEADS_TO_FILE;
	place->is_closing = false; /* (it is closed, and another open got it) */
	if (place->batch == batch)
		return place->leads;
	place->batch = batch;
	if (place->state == PLACE_FILE && !place->opened->is_unsure &&
	    leads_to(process, number, place->opened) && !has_other_append(place->opened))
		place->leads = LEADS_TO_FILE;
	else
		place->leads = correct_number(process, number);
	return place->leads;
}

enum leads ensure_slot(struct ring *ring, pid_t process, int number)
{
	if (number < 0 || number >= VERSION_ONE_SLOTS)
		return is_open(process, number) ? LEADS_ELSEWHERE : LEADS_NOWHERE;
	u32 slot = VERSION_ONE_SLOTS + (u32)number;
	ring->slot_count = MOST_SLOTS;
	if (leads_to(process, number, ring->now[slot]) && !has_other_append(ring->now[slot]))
		return LEADS_TO_FILE;
	int copy = copy_descriptor(process, number);
	if (copy < 0)
		return LEADS_NOWHERE;
	i64 known = ring->slots[slot] || ring->now[slot] ? -1 : description_of(copy, false);
	char *name = known < 0 ? name_in_replay(copy) : NULL;
	ring->now[slot] = release(ring->now[slot]);
	if (known >= 0) {
		ring->slots[slot] = (u32)known + 1;
		ring->now[slot] = hold(trace.descriptions[known].opened);
	} else if (name) {
		ring->now[slot] = make_again(ring, slot + 1, name, copy, 0);
	}
	if (known >= 0 || !name)
		close(copy);
	free(name);
	return ring->now[slot] ? LEADS_TO_FILE : LEADS_ELSEWHERE;
}

bool take_as_other(int number)
{
	if (number < 0 || (u32)number >= trace.table_size)
		return false;
	struct place *place = &places[number];
	if (place->state != PLACE_FREE)
		return place->state == PLACE_TAKEN;
	changes_free();
	if (options.format == 3) {
		set_taken(of_number(number));
	} else {
		make_open_at(number, taken_name, O_CREAT);
		make_path(OP_UNLINKAT, 0, taken_name);
	}
	place->state = PLACE_TAKEN;
	return true;
}

/* A number that is open in the command and free in the replay is taken there too. */
static void take_in_replay(pid_t process, int number)
{
	if (ensure_number(process, number) != LEADS_TO_FILE)
		take_as_other(number);
}

void match_lowest(pid_t process, u32 opens, u32 opens_in_flight)
{
	u32 wanted = opens + opens_in_flight;

	trace.uses_table = true;
	for (int number = 0; (u32)number < trace.table_size && wanted; number++) {
		struct place *place = &places[number];
		if (place->is_closing) {
			/* (it is free in the replay before the next one is opened) */
			wanted--;
		} else if (!is_open(process, number)) {
			wanted--;
			if (place->state != PLACE_FREE)
				close_number(number);
		} else if (place->state == PLACE_FREE && opens_in_flight) {
			/* (one that an entry in flight has opened) */
			opens_in_flight--;
			wanted--;
		} else if (place->state == PLACE_FREE) {
			take_in_replay(process, number);
		}
	}
}

int lowest_free(u32 others)
{
	is_reckoned = true;
	for (u32 number = 0; number < trace.table_size; number++) {
		if (places[number].state == PLACE_FREE && !others--)
			return (int)number;
	}
	return -1;
}

void table_surprised(void)
{
	surprises++;
}

u64 count_surprises(void)
{
	return surprises;
}

void let_go_of_numbers(pid_t process)
{
	for (u32 number = 0; number < MOST_TABLE; number++) {
		struct place *place = &places[number];
		if (place->opened && place->process == process)
			place->opened = leave_opened(place->opened);
	}
}

void let_go_of_closed(void)
{
	for (u32 number = 0; number < MOST_TABLE; number++) {
		struct place *place = &places[number];
		if (!place->opened || place->opened->descriptor < 0 ||
		    leads_to(place->process, (int)number, place->opened))
			continue;
		place->opened = leave_opened(place->opened);
	}
}

bool open_number_anew(int number)
{
	struct opened *opened = opened_at(number);
	char *name = opened && opened->descriptor >= 0 ? name_in_replay(opened->descriptor) : NULL;

	if (!name)
		return false;
	int copy = fcntl(opened->descriptor, F_DUPFD_CLOEXEC, 0);
	close_number(number);
	open_number(places[number].process, number, name, copy);
	free(name);
	return true;
}

struct opened *take_number(int number, bool *was_taken)
{
	struct opened *opened = opened_at(number);

	*was_taken = false;
	if (number < 0 || (u32)number >= trace.table_size || places[number].state == PLACE_FREE)
		return NULL;
	*was_taken = places[number].state == PLACE_TAKEN;
	places[number].opened = NULL;
	places[number].state = PLACE_FREE;
	places[number].is_closing = true;
	places[number].closed = opened;
	return opened;
}

void give_back_number(int number, struct opened *opened, bool was_taken)
{
	number_closed(number);
	if (!(opened || was_taken) || places[number].state != PLACE_FREE) {
		release(opened);
		return;
	}
	places[number].opened = opened;
	places[number].state = opened ? PLACE_FILE : PLACE_TAKEN;
}

void number_closed(int number)
{
	if (number >= 0 && (u32)number < trace.table_size)
		places[number].is_closing = false;
}

void number_installed(pid_t process, int number, struct ring *ring, u32 slot)
{
	if (number < 0 || (u32)number >= trace.table_size || places[number].is_closing)
		return;
	struct opened *opened = set_slot_of(of_number(number), ring, slot);
	if (!opened)
		return;
	if (opened->descriptor < 0) /* (its position can be seen from here on) */
		opened->descriptor = copy_descriptor(process, number);
	release(places[number].opened);
	places[number] =
		(struct place){ .state = PLACE_FILE, .opened = opened, .process = process };
}

void number_opened(pid_t process, int number, bool is_unsure)
{
	if (number < 0 || (u32)number >= trace.table_size)
		return;
	struct place *place = &places[number];
	int copy = copy_descriptor(process, number);

	if (place->state != PLACE_FREE) {
		note("a descriptor that the replay has at another number", NULL);
		is_unsure = true;
	}
	release(place->opened);
	if (options.format == 3 && copy < 0) { /* (it is closed again, maybe not by an entry) */
		place->opened = NULL;
		close_number(number);
		return;
	}
	if (copy >= 0 && !is_file_or_directory(copy)) {
		close(copy);
		copy = -1;
	}
	if (options.format == 3 && copy < 0)
		set_taken(of_number(number));
	place->state = copy < 0 ? PLACE_TAKEN : PLACE_FILE;
	place->process = process;
	place->opened = copy < 0 ? NULL : new_opened(copy, 0);
	if (place->opened)
		place->opened->is_unsure = is_unsure;
}
