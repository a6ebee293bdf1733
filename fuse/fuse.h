/*
 * The parts of dvbemu-fuse: space.c makes the place where programs see the devices, devices.c answers their calls, and waits.c
 * tells of those that wait.
 */
#ifndef DVBEMU_FUSE_H
#define DVBEMU_FUSE_H

#include <stddef.h>
#include <stdint.h>
#include <sys/types.h>

#include "../preload/preload.h"

/* mounts the devices on a folder: a session of libfuse, or NULL; and answers calls until SIGTERM comes */
struct fuse_session *devices_mount(const char *on);
void devices_serve(struct fuse_session *session);
void read_of(pid_t process, const char *name, char *into, size_t room);

/* A thread has asked for a device's state, of which something is there or not; it does something else; a device is closed; and
 * what is due is told, and when it is looked at again. */
void waited_for(const struct traced *who, uint32_t device, int is_ready);
void wait_left(pid_t thread);
void wait_closed(uint32_t device);
long waits_seen(long now, long next);

#endif
