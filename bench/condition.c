/* Two threads that wake each other in turn by a condition variable: prints the seconds that so many round trips took. */
#include <pthread.h>
#include <stdio.h>
#include <stdlib.h>
#include <time.h>

static pthread_mutex_t lock = PTHREAD_MUTEX_INITIALIZER;
static pthread_cond_t changed = PTHREAD_COND_INITIALIZER;
static int turn;
static long rounds;

static void *play(void *who)
{
	int mine = *(int *)who;

	for (long i = 0; i < rounds; i++) {
		pthread_mutex_lock(&lock);
		while (turn != mine)
			pthread_cond_wait(&changed, &lock);
		turn = !mine;
		pthread_cond_signal(&changed);
		pthread_mutex_unlock(&lock);
	}
	return NULL;
}

int main(int argc, char **argv)
{
	int here = 0, there = 1;
	pthread_t other;
	struct timespec began, ended;

	rounds = argc > 1 ? atol(argv[1]) : 100000;
	clock_gettime(CLOCK_MONOTONIC, &began);
	if (pthread_create(&other, NULL, play, &there))
		return 1;
	play(&here);
	pthread_join(other, NULL);
	clock_gettime(CLOCK_MONOTONIC, &ended);
	printf("%f\n", ended.tv_sec - began.tv_sec + (ended.tv_nsec - began.tv_nsec) / 1e9);
	return 0;
}
