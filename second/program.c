/*
 * program.c - the session program: a word or none, and standard input to lines.
 */

/* What standard input has given before the samples. */
static struct {
    unsigned char profile[SECOND_PROFILE_BYTES * SECOND_PROFILE_MOST];
    unsigned char targets[SECOND_TARGET_BYTES * SECOND_TARGETS_MOST];
    size_t profile_count, target_count;          /* bytes */
} second_given;

/* `x` and the number. */
void second_print_refusal(int refusal)
{
    printf("x %d\n", refusal);
    fflush(stdout);
}

/* "Each sample prints one line, decimal, single spaces: time, state, penalty,
 * cause, stopping location as in the record." */
void second_print_decision(const unsigned char *decision)
{
    printf("%ld %ld %ld %ld %ld\n",
           (long)second_bits(decision, 8, 24), (long)second_bits(decision, 32, 3),
           (long)second_bits(decision, 35, 1), (long)second_bits(decision, 36, 4),
           (long)second_bits(decision, 40, 24));
}

/* A whole number of so many bytes, high byte first; `missing` where the input ends before. */
size_t second_take_number(size_t bytes, size_t missing)
{
    unsigned char number[2];
    if (fread(number, 1, bytes, stdin) != bytes)
        return missing;
    return (size_t)second_bits(number, 0, 8 * (int)bytes);
}

/* "A one-byte block count follows the consist, 0 for none" (02, R-1), then the blocks: 0,
 * with how many bytes they are, or 13 where the count is missing or over 64, or a byte is
 * missing.  Nothing is read on after a count out of range. */
int second_take_blocks(unsigned char *blocks, size_t *count)
{
    size_t records = second_take_number(1, SECOND_BLOCKS_MOST + 1);
    if (records > SECOND_BLOCKS_MOST)
        return 13;
    *count = records * SECOND_BLOCK_BYTES;
    return fread(blocks, 1, *count, stdin) == *count ? 0 : 13;
}

/* "Consist": 0, or what it is refused for.  2, 4 and 5 are judged on the 16 bytes alone,
 * before the block count is taken (decision 142). */
int second_take_consist(second_session *session, second_choice choice)
{
    unsigned char bytes[SECOND_CONSIST_BYTES + SECOND_BLOCK_BYTES * SECOND_BLOCKS_MOST];
    second_consist alone;
    size_t count = fread(bytes, 1, SECOND_CONSIST_BYTES, stdin);
    int refusal = second_read_consist(bytes, count, &alone);
    size_t more = 0;
    if (refusal == 0)
        refusal = second_take_blocks(bytes + SECOND_CONSIST_BYTES, &more);
    if (refusal != 0)
        return refusal;
    return second_open_with(session, bytes, SECOND_CONSIST_BYTES + more, choice);
}

/* "Two-byte record count (high byte first) and profile": 0, or 6 where it is
 * broken or short.  Nothing is read on after a count out of range. */
int second_take_profile(void)
{
    static second_profile read;
    size_t records = second_take_number(2, 0);
    if (records < SECOND_PROFILE_LEAST || records > SECOND_PROFILE_MOST)
        return 6;
    size_t count = records * SECOND_PROFILE_BYTES;
    second_given.profile_count = count;
    if (fread(second_given.profile, 1, count, stdin) != count)
        return 6;
    return second_read_profile(second_given.profile, count, &read);
}

/* "One-byte count and targets": 0, or 7 where they are broken or short. */
int second_take_targets(void)
{
    second_targets read;
    size_t records = second_take_number(1, SECOND_TARGETS_MOST + 1);
    if (records > SECOND_TARGETS_MOST)
        return 7;
    size_t count = records * SECOND_TARGET_BYTES;
    second_given.target_count = count;
    if (fread(second_given.targets, 1, count, stdin) != count)
        return 7;
    return second_read_targets(second_given.targets, count, &read);
}

/* "Each sample prints one line ... or `x` and the number.  A short last
 * sample prints `x 2`."  The program prints the second record "as a second line
 * alike" (02, R-5). */
void second_run_samples(second_session *session)
{
    unsigned char sample[SECOND_SAMPLE_BYTES];
    unsigned char decisions[SECOND_BOTH_BYTES];
    size_t count;
    while ((count = fread(sample, 1, sizeof sample, stdin)) > 0) {
        int refusal = second_judge(session, sample, count,
                                   second_given.profile, second_given.profile_count,
                                   second_given.targets, second_given.target_count,
                                   decisions, sizeof decisions);
        if (refusal == 0) {
            second_print_decision(decisions);
            second_print_decision(decisions + SECOND_DECISION_BYTES);
            fflush(stdout);
        } else {
            second_print_refusal(refusal);
        }
        if (count < sizeof sample || ferror(stdout))
            break;
    }
}

/* "The old choice" of 02, R-7, is one word, and no word is the default (decision 152): 0,
 * with the choice, or 2 for any other word and for more than one. */
int second_take_words(int count, char **words, second_choice *choice)
{
    *choice = SECOND_FIVE_SECONDS;
    if (count < 2)
        return 0;
    *choice = SECOND_EVERLASTING;
    return count == 2 && strcmp(words[1], "everlasting") == 0 ? 0 : 2;
}

/* "The session program reads standard input: consist, two-byte record count
 * (high byte first) and profile, one-byte count and targets, then samples.  A
 * refused consist prints `x` and its number and ends; a broken or short profile
 * prints `x 6`, targets `x 7`, and end."  The blocks are the consist's (02, R-1).  Its
 * status is 0, or 1 where the output could not be written (decision 41), or 2 for a wrong
 * word, before any byte is read (decision 152). */
int main(int count, char **words)
{
    static second_session session;
    second_choice choice;

    if (second_take_words(count, words, &choice) != 0) {
        fprintf(stderr, "second: one word, everlasting, or none\n");
        return 2;
    }

    /* Nothing is taken from standard input before it is needed. */
    setvbuf(stdin, NULL, _IONBF, 0);

    int refusal = second_take_consist(&session, choice);
    if (refusal == 0)
        refusal = second_take_profile();
    if (refusal == 0)
        refusal = second_take_targets();
    if (refusal != 0)
        second_print_refusal(refusal);
    else
        second_run_samples(&session);
    return ferror(stdout) ? 1 : 0;
}
