/* The atomic steps of a lane between threads, and nothing else: what a lane that makes these steps by these workers comes to
 * without frames and lists.
 *
 * A sender, a mover and a receiver in threads of their own carry a hundred thousand frames through a ring of 1,024 and of 4
 * entries. Each load and store is sequentially consistent, as those of the lane's table, and words lie apart as there. A turn of
 * the mover is one of its steps and a load of index out, as in lane_workers. It takes up to eight entries, stores their headers
 * and then their flags, so it draws no choice. Passes end after 16 idle turns, and workers look for news of one another, as in
 * cluster_run. No frame is made, kept or compared: a slot has a number.
 *
 * steps TIMES: prints the least microseconds of this many runs, for each ring. */
#define _GNU_SOURCE
#include <pthread.h>
#include <sched.h>
#include <stdatomic.h>
#include <stdint.h>
#include <stdio.h>
#include <stdlib.h>
#include <time.h>

enum { FRAMES = 100000, HELD = 8, IDLE_TURNS = 16, SPACING = 15, SMALL_RING = 16, LOOKS = 1024, QUICK_LOOKS = 64 };

static uint32_t entries;
static _Atomic uint64_t *posted, *header, *flag, *index_out, *index_word, *link_word;
static uint64_t *slot, sum;
static atomic_bool over;

/* How often a worker told that a pass came to something, on cache lines of its own. */
static struct news {
	_Atomic uint64_t count;
	uint64_t apart[15];
} sent_news, moved_news, received_news;

/* Looks until this was told more than before; in a small ring it only yields after each fourth idle pass. */
static void pause_for(struct news *one, struct news *other, uint64_t told, uint32_t idle)
{
	if (entries < SMALL_RING) {
		if (idle % 4 == 3)
			sched_yield();
		return;
	}
	for (int look = 0; look < LOOKS; look++) {
		if (atomic_load(&one->count) + atomic_load(&other->count) != told || atomic_load(&over))
			return;
		if (look < QUICK_LOOKS)
			__builtin_ia32_pause();
		else
			sched_yield();
	}
}

static uint64_t told_by(struct news *one, struct news *other)
{
	if (entries < SMALL_RING)
		return 0;
	return atomic_load(&one->count) + atomic_load(&other->count);
}

static void *send_all(void *unused)
{
	static struct news none;
	uint32_t head = 0, idle = 0;

	for (uint32_t sent = 0; sent < FRAMES;) {
		uint64_t told = told_by(&moved_news, &none);
		uint32_t before = sent;

		for (int turns = 0; sent < FRAMES && turns < IDLE_TURNS;) {
			if (atomic_load(link_word) || head == atomic_load(index_word)) {
				turns++;
				continue;
			}
			slot[head] = sent++;
			atomic_store(&posted[head], sent);
			head = head + 1 < entries ? head + 1 : 0;
			turns = 0;
		}
		idle = sent > before ? 0 : idle + 1;
		if (sent > before && entries >= SMALL_RING)
			atomic_fetch_add(&sent_news.count, 1);
		if (sent < FRAMES)
			pause_for(&moved_news, &none, told, idle);
	}
	return unused;
}

/* The entries that the mover has, by number and position. */
struct mover {
	uint32_t flagged, stored, taken, flag_at, header_at, next;
	uint64_t back;
};

static uint32_t after(uint32_t position)
{
	return position + 1 < entries ? position + 1 : 0;
}

static int move_turn(struct mover *it)
{
	int did = 1;

	if (it->stored == it->flagged && it->taken - it->flagged < HELD && atomic_load(&posted[it->next]) == (uint64_t)it->taken + 1) {
		it->taken++;
		it->next = after(it->next);
	} else if (it->stored < it->taken) {
		atomic_store(&header[it->header_at], (uint64_t)it->stored + 1);
		it->stored++;
		it->header_at = after(it->header_at);
	} else if (it->flagged < it->stored) {
		atomic_store(&flag[it->flag_at], 1);
		it->flagged++;
		it->flag_at = after(it->flag_at);
	} else {
		did = 0;
	}
	uint64_t last = atomic_load(index_out);
	if (last != it->back) {
		atomic_store(index_word, last);
		it->back = last;
		did = 1;
	}
	return did;
}

static void *move_all(void *unused)
{
	struct mover it = { .back = entries - 1 };
	uint32_t idle = 0;

	while (!atomic_load(&over)) {
		uint64_t told = told_by(&sent_news, &received_news);
		int turns = 0, did = 0;

		while (turns < IDLE_TURNS) {
			if (move_turn(&it)) {
				did = 1;
				turns = 0;
			} else {
				turns++;
			}
		}
		idle = did ? 0 : idle + 1;
		if (did && entries >= SMALL_RING)
			atomic_fetch_add(&moved_news.count, 1);
		pause_for(&sent_news, &received_news, told, idle);
	}
	return unused;
}

static void *receive_all(void *unused)
{
	static struct news none;
	uint32_t at = 0, idle = 0;

	for (uint32_t got = 0; got < FRAMES;) {
		uint64_t told = told_by(&moved_news, &none);
		uint32_t before = got;

		for (int turns = 0; got < FRAMES && turns < IDLE_TURNS;) {
			if (atomic_load(&flag[at]) != 1) {
				turns++;
				continue;
			}
			sum += atomic_load(&header[at]) - 1 == slot[at];
			atomic_store(&flag[at], 0);
			atomic_store(index_out, at);
			at = after(at);
			got++;
			turns = 0;
		}
		idle = got > before ? 0 : idle + 1;
		if (got > before && entries >= SMALL_RING)
			atomic_fetch_add(&received_news.count, 1);
		if (got < FRAMES)
			pause_for(&moved_news, &none, told, idle);
	}
	atomic_store(&over, 1);
	return unused;
}

/* The microseconds of one run. */
static long run(void)
{
	_Atomic uint64_t *words = calloc(3 * (size_t)entries + 6 * SPACING + 3, sizeof *words);
	struct timespec before, after;
	pthread_t threads[3];

	slot = calloc(entries, sizeof *slot);
	if (!words || !slot)
		abort();
	posted = words, header = posted + entries + SPACING, flag = header + entries + SPACING;
	index_out = flag + entries + SPACING, index_word = index_out + 1 + SPACING, link_word = index_word + 1 + SPACING;
	atomic_store(index_out, entries - 1);
	atomic_store(index_word, entries - 1);
	atomic_store(&over, 0);
	sum = 0;
	clock_gettime(CLOCK_MONOTONIC, &before);
	if (pthread_create(&threads[0], NULL, receive_all, NULL) || pthread_create(&threads[1], NULL, move_all, NULL) ||
	    pthread_create(&threads[2], NULL, send_all, NULL))
		abort();
	for (int i = 0; i < 3; i++)
		pthread_join(threads[i], NULL);
	clock_gettime(CLOCK_MONOTONIC, &after);
	if (sum != FRAMES)
		abort();
	free((void *)words);
	free(slot);
	return (after.tv_sec - before.tv_sec) * 1000000 + (after.tv_nsec - before.tv_nsec) / 1000;
}

int main(int count, char **words)
{
	static const uint32_t rings[] = { 1024, 4 };

	for (int i = 0; i < 2; i++) {
		long least = -1;

		entries = rings[i];
		for (int times = count > 1 ? atoi(words[1]) : 1; times > 0; times--) {
			long took = run();

			if (least < 0 || took < least)
				least = took;
		}
		printf("steps alone, %u entries: %ld frames a second, %ld us\n", entries, FRAMES * 1000000L / least, least);
	}
	return 0;
}
