/* The descriptor table as the replay has it, and what makes it that of the command before an entry
 * runs. */
#ifndef TABLE_H
#define TABLE_H

#include "rings.h"

/* Where a number leads in the command: nowhere, to what is no file of the tree, or to a file. */
enum leads { LEADS_NOWHERE, LEADS_ELSEWHERE, LEADS_TO_FILE };

/* A number that is open at the start: a description, or -1 where it is no file of the tree. */
void start_place(int number, i64 description);
/* What is looked at from here on is of another call: numbers are looked at once a call. */
void begin_batch(void);

/* Whether the replay has something at a number. */
bool is_taken(int number);
/* A number that leads to what is no file of the tree is taken in the replay, too; false where the
 * trace cannot have it. */
bool take_as_other(int number);
/* Makes a number lead in the replay where it leads in the command. */
enum leads ensure_number(pid_t process, int number);
/* The same for version 1, with a slot of the ring for the number. */
enum leads ensure_slot(struct ring *ring, pid_t process, int number);
/* Makes the lowest free numbers those of the command: as many as are opened, behind those in
 * flight. */
void match_lowest(pid_t process, u32 opens, u32 opens_in_flight);
/* The lowest free number in the replay behind so many others, or -1. */
int lowest_free(u32 others);
/* The table came to be otherwise than these were reckoned with, since an entry in flight ended in
 * another way; and how often it did. */
void table_surprised(void);
u64 count_surprises(void);
/* Opens a number anew, so that its position is 0; false where its file has no name. */
bool open_number_anew(int number);

/* Lets go of the copies of what numbers of a process lead to: each is made to lead there anew where
 * it is used. */
void let_go_of_numbers(pid_t process);
/* The same of numbers that lead there no more in their process. */
void let_go_of_closed(void);

/* What the replay has at a number, or NULL. */
struct opened *opened_at(int number);
/* The number at which the replay has what a descriptor of the recorder leads to, whose status is
 * this, or -1. */
int number_with(int copy, const struct stat *status);
/* An entry in flight closes a number; the description is the caller's. `was_taken` says that it is
 * no file. */
struct opened *take_number(int number, bool *was_taken);
/* It was not closed after all. */
void give_back_number(int number, struct opened *opened, bool was_taken);
/* The entry is in flight no more. */
void number_closed(int number);
/* In version 3: an entry of the command gave a number what a slot of a ring has. */
void number_installed(pid_t process, int number, struct ring *ring, u32 slot);
/* An entry of the command opened a number. */
void number_opened(pid_t process, int number, bool is_unsure);

#endif
