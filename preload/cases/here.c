/* What one program does by itself, for tests/test_serve.py and bench/bench: `cases +WORD ..`. */
#define _GNU_SOURCE
#include <sys/select.h>

#include "cases.h"

/* what may be done beside other programs, and what wants the adapter alone, one case behind another */
static const char *const beside[] = { "sections",	  "poll_by_priority",  "by_level", "nothing_is_left",
				      "ends_by_its_time", "closed_by_a_child", NULL };
static const char *const alone[] = {
	"select_in_each_set",	     "in_parts", "all_bytes_of_the_recorder", "one_recorder", "requests_that_it_has_not",
	"each_close_frees_the_node", NULL
};

static int cases_in(const char *const *names)
{
	int count = 0;
	for (; *names; names++, count++) {
		case_of(*names)->try();
		close_range(3, ~0U, 0);
	}
	return count;
}

static int finds(int fd, int milliseconds)
{
	struct timeval time = { milliseconds / 1000, milliseconds % 1000 * 1000 };
	fd_set set;
	FD_ZERO(&set);
	FD_SET(fd, &set);
	return select(fd + 1, &set, NULL, NULL, &time) == 1 && FD_ISSET(fd, &set);
}

/* waits so many seconds for what never comes */
static void waits_for_nothing(int wanted)
{
	struct pollfd one = { silent(0), POLLIN, 0 };
	want(!poll(&one, 1, wanted * 1000), "poll waits for nothing");
}

/* the section at the end of a stream that is played once */
static void finds_the_last(int nothing)
{
	int fd = pat(0);
	want(finds(fd, LATE_MS) && is_pat(fd), "the last section");
	want(!finds(fd, 300 + nothing), "nothing comes behind the end");
}

static void makes_many_calls(int count)
{
	int fd = pat(O_NONBLOCK);
	for (int i = 0; i < count; i++)
		want(!ioctl(fd, DMX_STOP), "as many calls as are wanted");
	want(!ioctl(fd, DMX_START) && finds(fd, LATE_MS), "the filter starts once more");
}

/* A node that another program has closed just before: what is heard of that close, maybe later, doesn't take the bell from who
 * has it. */
static void takes_turns(int turns)
{
	/* (the other one goes on as long as this one is there) */
	pid_t self = getpid(), other = fork();
	while (!other && getppid() == self)
		close(open(DEMUX, O_RDWR));
	if (!other)
		_exit(0);
	for (int i = 0; i < turns; i++) {
		int fd = pat(O_NONBLOCK);
		want(finds(fd, LATE_MS) && !close(fd), "each wait on a node that another program had finds a section");
	}
	want(other > 0 && !kill(other, SIGKILL) && waitpid(other, NULL, 0) == other, "the other program ends");
}

/* whether the frontend has a lock, by the exit status alone */
static void sees_the_lock(int status) { exit(ioctl(open(TUNER, O_RDONLY), FE_READ_STATUS, &status) || !(status & FE_HAS_LOCK)); }

static const struct {
	const char *word;
	void (*does)(int);
	int is_timed;
} all[] = { { "+wait", waits_for_nothing, 0 }, { "+last", finds_the_last, 0 },	  { "+many", makes_many_calls, 0 },
	    { "+turns", takes_turns, 0 },      { "+lock", sees_the_lock, 0 },	  { "+calls", time_calls, 1 },
	    { "+pipes", time_pipes, 1 },       { "+sections", time_sections, 1 }, { "+record", time_recording, 1 },
	    { "+take", time_bytes, 1 } };

int here(const char *word, const char *number)
{
	int count = !strcmp(word, "+beside") || !strcmp(word, "+alone") ? cases_in(beside) : 0;
	count += !strcmp(word, "+alone") ? cases_in(alone) : 0;
	for (size_t i = 0; i < sizeof all / sizeof *all; i++)
		if (!strcmp(word, all[i].word)) {
			all[i].does(number ? atoi(number) : 0);
			if (all[i].is_timed)
				return 0;
			count++;
		}
	want(count, "a word that is known");
	printf("%d passed, 0 failed\n", count);
	return 0;
}
