/* A flight loop: reads a model from a file, and once a cycle hands Titan what was sensed and does what it says.
 *
 *     flight MODEL CYCLES
 *
 * MODEL is examples/valve.titan. The plant is simulated here: a driver and a valve that gets stuck when it is first opened. In cycle 4 its
 * sensor shows a flow that nothing explains, and the executive is restarted, with the plant in its safe state. */
#include "titan.h"

#include <stdio.h>
#include <stdlib.h>
#include <string.h>

/* The plant. */
struct plant { int driver_on, valve_open, opened_once; };

static void act(struct plant *plant, const char *command) {
    if (strcmp(command, "drv_on") == 0) plant->driver_on = 1;
    else if (strcmp(command, "drv_off") == 0) plant->driver_on = 0;
    else if (!plant->driver_on) return;
    else if (strcmp(command, "v_close") == 0) plant->valve_open = 0;
    else if (strcmp(command, "v_open") == 0) plant->valve_open = plant->opened_once++ > 0;
}

/* Hands over a line, and prints what comes out, which `text` then has as a string. A report that doesn't fit would lose its command, so it stops the
 * flight. */
static uint32_t say(titan *session, const char *line, char *text, size_t size) {
    size_t length;
    uint32_t status = titan_line(session, (const uint8_t *)line, strlen(line), (uint8_t *)text, size - 1, &length);
    text[length] = '\0';
    fputs(text, stdout);
    if (status < TITAN_WRONG_CALL && length == size - 1) return fputs("a report doesn't fit\n", stderr), TITAN_WRONG_CALL;
    return status;
}

/* Hands over the lines of a file up to and with `script`. */
static uint32_t read_model(titan *session, const char *path, char *text, size_t size) {
    static char line[4098];
    uint32_t status = TITAN_GOES_ON;
    FILE *file = fopen(path, "r");
    if (file == NULL) return perror(path), TITAN_WRONG_CALL;
    while (status == TITAN_GOES_ON && fgets(line, sizeof line, file) != NULL) {
        line[strcspn(line, "\n")] = '\0';
        status = say(session, line, text, size);
        if (strcmp(line, "script") == 0) break;
    }
    fclose(file);
    return status;
}

/* One cycle: what is sensed, a tick, and what the executive wants. */
static uint32_t cycle(titan *session, struct plant *plant, int number, char *text, size_t size) {
    int flows = number == 4 || plant->valve_open;
    uint32_t status = say(session, flows ? "observe flow = some" : "observe flow = none", text, size);
    if (status == TITAN_GOES_ON) status = say(session, "tick", text, size);
    if (status != TITAN_GOES_ON) return status;
    text[strcspn(text, "\n")] = '\0';
    char *send = strstr(text, " send ");
    if (send != NULL) {
        act(plant, send + 6);
    } else if (strstr(text, " unexplained") != NULL) {
        puts("nothing explains this: restart");
        plant->driver_on = plant->valve_open = 0;
        status = say(session, "reset", text, size);
        if (status == TITAN_GOES_ON) status = say(session, "goal valve = open", text, size);
    }
    return status;
}

int main(int count, char **words) {
    if (count != 3) return fputs("usage: flight MODEL CYCLES\n", stderr), 2;
    static char text[32768]; /* a tick of 256 components with the longest names fits */
    struct plant plant = {0, 0, 0};
    titan session = TITAN_NOTHING;
    uint32_t status = titan_open(&session, TITAN_IN_WORDS);
    if (status == TITAN_GOES_ON) status = read_model(&session, words[1], text, sizeof text);
    if (status == TITAN_GOES_ON) status = say(&session, "goal valve = open", text, sizeof text);
    for (int number = 1; status == TITAN_GOES_ON && number <= atoi(words[2]); number++)
        status = cycle(&session, &plant, number, text, sizeof text);
    size_t length = 0;
    if (status == TITAN_GOES_ON) status = titan_end(&session, (uint8_t *)text, sizeof text, &length);
    titan_close(&session);
    if (status != TITAN_ENDED) fprintf(stderr, "the flight stopped with status %u\n", (unsigned)status);
    return status == TITAN_ENDED ? 0 : 1;
}
