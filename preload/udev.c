/*
 * libudev, by which libdvbv5 and others find devices: an enumeration of the subsystem `dvb` has the emulated adapters, a
 * frontend, a demux and a dvr each. Any other enumeration, and whatever else is asked of any other object, is the library's own.
 */
#define _GNU_SOURCE
#include <dlfcn.h>
#include <stdio.h>
#include <stdlib.h>
#include <string.h>
#include <sys/sysmacros.h>

#include "preload.h"

enum { PARTS = 4, LAST_PART = 2, PARENT = 3, NAME = 64, MOST_SETS = 64, MAJOR = 212 };

static struct device_found {
	char syspath[NAME], name[NAME], node[NAME], adapter[4];
	const char *type, *subsystem;
} all[MOST_ADAPTERS * PARTS];

static const char *const types[] = { "frontend", "demux", "dvr" };

static void make(void)
{
	init();
	for (int i = 0; i < adapters * PARTS && !all[i].subsystem; i++) {
		struct device_found *one = &all[i];
		int adapter = i / PARTS, part = i % PARTS;
		const char *type = part == PARENT ? NULL : types[part];
		snprintf(one->syspath, NAME, "/sys/devices/dvbemu%d%s%s%s", adapter, type ? "/" : "", type ? type : "",
			 type ? "0" : "");
		snprintf(one->name, NAME, type ? "dvb%d.%s0" : "0000:00:%02d.0", type ? adapter : adapter + 9, type);
		snprintf(one->node, NAME, type ? "/dev/dvb/adapter%d/%s0" : "", adapter, type);
		snprintf(one->adapter, sizeof one->adapter, "%d", adapter & 7);
		one->type = type;
		one->subsystem = type ? "dvb" : "pci";
	}
}

static struct device_found *own(const void *object)
{
	const struct device_found *one = object;
	return one >= all && one < &all[MOST_ADAPTERS * PARTS] ? (struct device_found *)one : NULL;
}

/* the library's own call, also where a plugin has brought the library */
static void *library(const char *name)
{
	static void *there;
	void *found = dlsym(RTLD_NEXT, name);
	if (!found && !there)
		there = dlopen("libudev.so.1", RTLD_LAZY);
	return found || !there ? found : dlsym(there, name);
}

/* a call of libudev, with what is done in front of the library's own, which returns where it has the answer */
#define UDEV(type, name, params, args, otherwise, ...)            \
	EXPORT type name params;                                  \
	EXPORT type name params                                   \
	{                                                         \
		static __typeof__(&name) real;                    \
		if (!real)                                        \
			real = (__typeof__(&name))library(#name); \
		make();                                           \
		__VA_ARGS__;                                      \
		return real ? real args : otherwise;              \
	}

/* ------ enumerations */

static void *sets[MOST_SETS];

static void **set_of(void *set)
{
	for (void **one = sets; one < &sets[MOST_SETS]; one++)
		if (*one == set)
			return one;
	return NULL;
}

static void note(void *set, const char *name)
{
	void **unused = name && !strcmp(name, "dvb") && !set_of(set) ? set_of(NULL) : NULL;
	if (unused)
		*unused = set;
}

static void forget(void *set)
{
	void **one = set ? set_of(set) : NULL;
	if (one)
		*one = NULL;
}

static void *next_of(struct device_found *one)
{
	one += (one - all) % PARTS == LAST_PART ? 2 : 1;
	return one < &all[adapters * PARTS] ? one : NULL;
}

static void *by_name(struct device_found *one, const char *name)
{
	while (one && strcmp(one->syspath, name))
		one = next_of(one);
	return one;
}

UDEV(int, udev_enumerate_add_match_subsystem, (void *set, const char *name), (set, name), 0, note(set, name))
UDEV(void *, udev_enumerate_unref, (void *set), (set), NULL, forget(set))
UDEV(void *, udev_enumerate_get_list_entry, (void *set), (set), NULL, if (set && set_of(set)) return adapters ? all : NULL)
UDEV(void *, udev_list_entry_get_next, (void *entry), (entry), NULL, if (own(entry)) return next_of(own(entry)))
UDEV(const char *, udev_list_entry_get_name, (void *entry), (entry), NULL, if (own(entry)) return own(entry)->syspath)
UDEV(const char *, udev_list_entry_get_value, (void *entry), (entry), NULL, if (own(entry)) return NULL)
UDEV(void *, udev_list_entry_get_by_name, (void *entry, const char *name), (entry, name), NULL,
     if (own(entry)) return by_name(own(entry), name))

/* ------ devices */

/* the device of this path, or of this name in a subsystem, or NULL */
static void *found_by(const char *path, const char *subsystem, const char *name)
{
	for (int i = 0; i < adapters * PARTS; i++)
		if (path ? !strcmp(all[i].syspath, path)
			 : subsystem && name && !strcmp(all[i].subsystem, subsystem) && !strcmp(all[i].name, name))
			return &all[i];
	return NULL;
}

UDEV(void *, udev_device_new_from_syspath, (void *udev, const char *path), (udev, path), NULL,
     if (path && found_by(path, NULL, NULL)) return found_by(path, NULL, NULL))
UDEV(void *, udev_device_new_from_subsystem_sysname, (void *udev, const char *subsystem, const char *name),
     (udev, subsystem, name), NULL, if (found_by(NULL, subsystem, name)) return found_by(NULL, subsystem, name))

/* a call on a device, or one with a name: what it tells of one of these */
#define TELLS(type, name, what) \
	UDEV(type, name, (void *object), (object), what, struct device_found *one = own(object); if (one) return what)
#define TELLS_BY(type, name, what)                                                                                     \
	UDEV(type, name, (void *object, const char *key), (object, key), what, struct device_found *one = own(object); \
	     if (one) return what)

static const char *property(const struct device_found *one, const char *key)
{
	if (!one || !one->type)
		return NULL;
	if (!strcmp(key, "DVB_DEVICE_TYPE"))
		return one->type;
	if (!strcmp(key, "DVB_ADAPTER_NUM"))
		return one->adapter;
	if (!strcmp(key, "DVB_DEVICE_NUM"))
		return "0";
	if (!strcmp(key, "SUBSYSTEM"))
		return one->subsystem;
	return !strcmp(key, "DEVNAME") ? one->node : NULL;
}

static struct device_found *parent_of(struct device_found *one)
{
	return one && one->type ? &all[(one - all) / PARTS * PARTS + PARENT] : NULL;
}

static dev_t number_of(const struct device_found *one)
{
	int place = one ? (int)(one - all) : 0;
	return one && one->type ? makedev(MAJOR, 64 * (place / PARTS) + 3 + place % PARTS) : 0;
}

TELLS(void *, udev_device_ref, one)
TELLS(void *, udev_device_unref, NULL)
TELLS(void *, udev_device_get_udev, NULL)
TELLS(void *, udev_device_get_parent, parent_of(one))
TELLS(const char *, udev_device_get_devpath, one ? one->syspath + 4 : NULL)
TELLS(const char *, udev_device_get_subsystem, one ? one->subsystem : NULL)
TELLS(const char *, udev_device_get_devtype, NULL)
TELLS(const char *, udev_device_get_syspath, one ? one->syspath : NULL)
TELLS(const char *, udev_device_get_sysname, one ? one->name : NULL)
TELLS(const char *, udev_device_get_sysnum, one && one->type ? "0" : NULL)
TELLS(const char *, udev_device_get_devnode, one && one->type ? one->node : NULL)
TELLS(int, udev_device_get_is_initialized, 1)
TELLS(void *, udev_device_get_devlinks_list_entry, NULL)
TELLS(void *, udev_device_get_properties_list_entry, NULL)
TELLS(void *, udev_device_get_tags_list_entry, NULL)
TELLS(void *, udev_device_get_current_tags_list_entry, NULL)
TELLS(void *, udev_device_get_sysattr_list_entry, NULL)
TELLS(const char *, udev_device_get_driver, one ? "dvbemu" : NULL)
TELLS(dev_t, udev_device_get_devnum, number_of(one))
TELLS(const char *, udev_device_get_action, NULL)
TELLS(unsigned long long, udev_device_get_seqnum, 0)
TELLS(unsigned long long, udev_device_get_usec_since_initialized, 0)
TELLS_BY(const char *, udev_device_get_property_value, property(one, key))
TELLS_BY(const char *, udev_device_get_sysattr_value, ((void)key, NULL))
TELLS_BY(int, udev_device_has_tag, ((void)key, 0))
TELLS_BY(int, udev_device_has_current_tag, ((void)key, 0))

UDEV(int, udev_device_set_sysattr_value, (void *object, const char *key, const char *value), (object, key, value), -1,
     if (own(object)) return -1)

static void *parent_in(struct device_found *parent, const char *subsystem, const char *type)
{
	return parent && !strcmp(parent->subsystem, subsystem) && !type ? parent : NULL;
}

UDEV(void *, udev_device_get_parent_with_subsystem_devtype, (void *object, const char *subsystem, const char *type),
     (object, subsystem, type), NULL, if (own(object)) return parent_in(parent_of(own(object)), subsystem, type))
