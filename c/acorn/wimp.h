/*
 * wimp.h: several tasks in one program, which send each other messages and bytes by calls with Acorn's names, over a
 * desk of vervainfile. Compile wimp.c and oserror.c with the program.
 *
 * A task that is started here has code of its own: the program takes its messages and answers them. Beside such tasks
 * the same desk may have others, which it plays itself (vf_desk_task). A task's memory is its slot: its blocks are made
 * by vf_desk_alloc, vf_desk_claim and the like, its bytes are written by vf_desk_write_at and read by vf_desk_read, and
 * an address is one in that slot. These calls take the task's name (wimp_name).
 *
 * The first argument of a call is the handle of the task that makes it. A call returns null if it was done. Else it
 * returns an error, and has changed nothing: VF_NULL for a null pointer, VF_NO_TASK if the handle is not that of a live
 * task that was started here, and what is named below. No two tasks have the same handle: when a task has ended, by
 * wimp_close_down or by vf_desk_kill, its handle is no task's, even if another task takes its name.
 */
#ifndef ACORN_WIMP_H
#define ACORN_WIMP_H

#include "oserror.h"
#include "vervainfile.h"

#ifdef __cplusplus
extern "C" {
#endif

/* A task's handle. */
typedef uint32_t wimp_t;

enum { WIMP_NULL_REASON_CODE = 0, WIMP_USER_MESSAGE = 17, WIMP_USER_MESSAGE_RECORDED = 18 };
enum { WIMP_USER_MESSAGE_ACKNOWLEDGE = 19 };

/* The desk on which tasks are started. It stays the caller's, who opens it before and closes it after them. All tasks
 * that were started before are forgotten. Call it again when the desk was closed and opened anew. */
void wimp_use_desk(struct vf_desk *desk);

/* Wimp_Initialise: starts a task, whose name is a letter and up to 11 letters or digits. VF_BAD_ARGUMENT,
 * VF_NAME_IN_USE, VF_TOO_MANY_TASKS, VF_NO_HANDLES, VF_NO_ROOM. */
os_error *wimp_initialise(const char *name, wimp_t *task);

/* Wimp_CloseDown: ends a task. */
os_error *wimp_close_down(wimp_t task);

/* The name of a task, by which the desk's own calls tell it; null if the handle is not that of a live task that was
 * started here. The bytes stay until the task has ended and another one is started. */
const char *wimp_name(wimp_t task);

/* Wimp_Poll: takes the task's next message into the block, and tells the event: 0, 17, 18 or 19. A message of 18 that
 * isn't answered before the task polls again comes back to its sender as 19. Poll these tasks by this call alone: an
 * acknowledgement goes by the message that it took last. */
os_error *wimp_poll(wimp_t task, struct vf_message *block, int *event);

/* Wimp_SendMessage: sends the block's message to a task as 17 or 18, and writes the sender's handle and the message's
 * ref into the block. With 19 the message whose ref is the block's your_ref counts as answered, where it is the one
 * that the task took last, and nothing is sent. The block's first word says how many bytes it has: 20 to 256, a
 * multiple of 4. No message goes to all tasks at once. VF_BAD_LENGTH, VF_BAD_ARGUMENT for another event, VF_NO_TASK,
 * VF_NO_REFS, VF_QUEUE_FULL, VF_NO_ROOM, VF_BAD_REF where your_ref was never given. */
os_error *wimp_send_message(wimp_t task, int event, struct vf_message *block, wimp_t to);

/* Wimp_TransferBlock: moves bytes from an address of one task to an address that another opened. One that the desk
 * plays opens the buffer of a transfer that fetches from this task; another task opens what its RAMFetch names, while
 * this task holds that message. A RAMFetch names addresses, not a block: where the other task has released its block
 * since and claimed another one there, the bytes go into that one. VF_BAD_RANGE, VF_NO_TASK. */
os_error *wimp_transfer_block(wimp_t from, uint32_t address, wimp_t to, uint32_t address2, int size);

#ifdef __cplusplus
}
#endif

#endif
