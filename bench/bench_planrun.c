/* A full input of 65,536 bytes through programs.

     input NAME               writes an input: 64 (64 nodes, 512 edges), or P
     time INPUT PROGRAM..     the best time of each program on an input, in
                              nanoseconds of the processor, a line each */
#define _DEFAULT_SOURCE
#include <fcntl.h>
#include <stdio.h>
#include <string.h>
#include <sys/resource.h>
#include <sys/wait.h>
#include <unistd.h>

#include "hand.h"
#include "measure.h"
#include "plans.h"
#include "script.h"

enum { INPUT_BYTES = 65536, TIMES = 12 };

static const struct shape shape_64 = {"64", 64, 8, 512, 1, 2, 0};

/* Calls that bring the run on, one in sixteen any other. */
static void write_input(const char *name)
{
    static struct sketch sketch;
    static struct shadow shadow;
    static struct picture picture;
    static uint8_t input[INPUT_BYTES];
    struct random random = {20240229};
    if (strcmp(name, "P") == 0)
        hand_plan_p(&sketch);
    else
        draw_shape(&shape_64, &random, &sketch);
    sketch_picture(&sketch, &picture);
    memcpy(input, picture.bytes, picture.length);
    shadow_begin(&sketch, &shadow);
    for (size_t at = picture.length; at + 4 <= INPUT_BYTES; at += 4) {
        struct call call = random_one_in(&random, 16)
                               ? draw_any_call(&random, &sketch)
                               : draw_useful_call(&random, &shadow);
        shadow_call(&shadow, call.code, call.process, call.edge);
        put_little(input + at, call.code, 1);
        put_little(input + at + 1, call.process, 1);
        put_little(input + at + 2, call.edge, 2);
    }
    if (fwrite(input, 1, INPUT_BYTES, stdout) != INPUT_BYTES ||
        fflush(stdout) != 0)
        give_up("cannot write");
}

static void run_program(const char *input, const char *program)
{
    int in = open(input, O_RDONLY), out = open("/dev/null", O_WRONLY);
    if (in < 0 || out < 0 || dup2(in, 0) < 0 || dup2(out, 1) < 0)
        _exit(127);
    execl(program, program, (char *)NULL);
    _exit(127);
}

static double microseconds(struct timeval time)
{
    return (double)time.tv_sec * 1e6 + (double)time.tv_usec;
}

static double time_program(const char *input, const char *program)
{
    struct rusage used;
    int status;
    pid_t child = fork();
    if (child == 0)
        run_program(input, program);
    if (child < 0 || wait4(child, &status, 0, &used) < 0 || status != 0)
        give_up("a program fails");
    return microseconds(used.ru_utime) + microseconds(used.ru_stime);
}

static void show_time(const char *input, const char *program)
{
    double best = 1e18;
    for (int i = 0; i < TIMES; i++)
        best = lower(best, time_program(input, program));
    printf("%.0f\n", 1000 * best);
}

int main(int arguments, char **argument)
{
    if (arguments == 3 && strcmp(argument[1], "input") == 0)
        write_input(argument[2]);
    else if (arguments > 3 && strcmp(argument[1], "time") == 0)
        for (int i = 3; i < arguments; i++)
            show_time(argument[2], argument[i]);
    else
        give_up("input NAME, or time INPUT PROGRAM..");
    return 0;
}
