/* Calls the library for each line of a file of calls (compare/README.md) and compares all that a call leaves: its answer and every lent byte.
   replay FILE canaries|own|guarded   how buffers are lent (replay.h) */
#include <stdio.h>
#include <stdlib.h>
#include <string.h>

#include "replay.h"

manner lending;
static const char *const manners[] = {[CANARIES] = "canaries", [OWN] = "own", [GUARDED] = "guarded"};

static const struct {
    const char *entry;
    int fields;
    bool (*replay)(const call *line);
} entries[] = {
    {"keccak_p", 3, replay_hash},          {"cshake256", 8, replay_hash},
    {"kmac256", 8, replay_hash},           {"kmacxof256", 8, replay_hash},
    {"session_cshake256", 4, replay_session}, {"session_kmacxof256", 4, replay_session},
    {"take", 3, replay_session},           {"give", 4, replay_session},
    {"seal", 11, replay_seal},             {"open", 10, replay_seal},
    {"generator_fresh", 1, replay_generator}, {"kmac_generator_fresh", 1, replay_generator},
    {"seed", 6, replay_generator},         {"draw", 7, replay_generator},
    {"plan_read", 5, replay_plan},         {"plan_destination", 6, replay_plan},
    {"plan_row", 10, replay_plan},         {"plan_length", 5, replay_plan},
    {"plan_write", 6, replay_plan},        {"plan_migrated_length", 5, replay_plan},
    {"plan_migrate", 6, replay_plan},      {"plan_start", 5, replay_plan},
    {"plan_step", 5, replay_plan},         {"hall_read", 7, replay_hall},
    {"hall_destination", 6, replay_hall},  {"hall_read_into", 11, replay_hall},
    {"hall_length", 7, replay_hall},       {"hall_write", 8, replay_hall},
};
enum { ENTRIES = sizeof entries / sizeof entries[0] };
static long counts[ENTRIES];

static call taken_apart(char *text)
{
    call line = {.count = 0};
    for (char *field = strtok(text, " \n"); field != NULL && line.count < MOST_FIELDS; field = strtok(NULL, " \n"))
        if (strcmp(field, "=") != 0)
            line.fields[line.count++] = field;
    return line;
}

/* Whether the line is a call whose answer is as expected. */
static bool replayed(const call *line)
{
    for (int i = 0; i < ENTRIES; i++)
        if (line->count > 0 && strcmp(line->fields[0], entries[i].entry) == 0) {
            counts[i]++;
            return line->count == entries[i].fields && entries[i].replay(line);
        }
    return false;
}

int main(int argc, char **argv)
{
    FILE *file = argc == 3 ? fopen(argv[1], "r") : NULL;
    while (file != NULL && lending <= GUARDED && strcmp(argv[2], manners[lending]) != 0)
        lending++;
    if (file == NULL || lending > GUARDED) {
        fprintf(stderr, "usage: replay FILE canaries|own|guarded, with a file of calls that can be read\n");
        return 2;
    }
    char *text = NULL;
    size_t room = 0;
    long lines = 0, wrong = 0;
    while (getline(&text, &room, file) != -1) {
        call line = taken_apart(text);
        lines++;
        if (!replayed(&line)) {
            wrong++;
            printf("line %ld: %s answers otherwise\n", lines, line.count > 0 ? line.fields[0] : "an empty line");
        }
    }
    free(text);
    fclose(file);
    for (int i = 0; i < ENTRIES; i++)
        printf("%s %ld%s", entries[i].entry, counts[i], i + 1 < ENTRIES ? ", " : "\n");
    printf("from C, buffers lent %s: %ld calls, %ld of them answered otherwise\n", manners[lending], lines, wrong);
    return lines > 0 && wrong == 0 ? 0 : 1;
}
