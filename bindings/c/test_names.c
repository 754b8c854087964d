/*
 * Names and meanings in buffers of each length, and packing into buffers that are too short.
 */
#include "iim_strerror.h"
#include "test.h"

/* Names in buffers of each length. */
void try_names(void) {
    char name[64];
    for (size_t len = 0; len < 12; len++) {
        memset(name, '*', sizeof name);
        expect(iim_dataset_name(2, 105, name, len) == 8
                   && (len > 8 ? strcmp(name, "Headline") == 0 && is_all((uint8_t *)name + 9, 55, '*') : is_all((uint8_t *)name, 64, '*')),
               "the name of a dataset");
        memset(name, '*', sizeof name);
        expect(iim_cause_name(14, name, len) == 7
                   && (len > 7 ? strcmp(name, "Missing") == 0 && is_all((uint8_t *)name + 8, 56, '*') : is_all((uint8_t *)name, 64, '*')),
               "the name of a cause");
        memset(name, '*', sizeof name);
        expect(iim_layer_name(IIM_LAYER_STORY, name, len) == 5
                   && (len > 5 ? strcmp(name, "story") == 0 && is_all((uint8_t *)name + 6, 58, '*') : is_all((uint8_t *)name, 64, '*')),
               "the name of a layer");
    }
    char means[128];
    memset(means, '*', sizeof means);
    expect(iim_cause_text(25, means, 21) == 21 && is_all((uint8_t *)means, 128, '*'), "a sentence that has no room");
    expect(iim_cause_text(25, means, 22) == 21 && strcmp(means, "9:10 is not the total") == 0, "a sentence that has just room");
    expect(iim_cause_text(4, means, sizeof means) == 0 && means[0] == 0, "a number that is no cause");
    expect(iim_dataset_name(3, 1, name, sizeof name) == 0 && name[0] == 0, "a dataset without a name");
    expect(iim_cause_name(0, NULL, 0) == 0 && iim_layer_name(0, NULL, 0) == 0 && iim_dataset_name(1, 1, NULL, 0) == 0, "no buffer for no name");
    expect(iim_version() == IIM_VERSION, "the version");
}

/* The meaning of each cause, as in docs/reference/causes.md. */
static const struct {
    uint8_t number;
    const char *text;
} CAUSES[] = {
    {1, "a tag doesn't begin with 1C"},
    {2, "octet 4 of a tag is above 80, or it is 80 and octet 5 is not 1 to 8"},
    {3, "the input ends inside an envelope; the octet is how many there were"},
    {10, "the record is neither the present one nor the next"},
    {11, "record 7, 8 or 9 has no dataset of this number"},
    {12, "a dataset that doesn't repeat comes a second time"},
    {13, "the dataset has fewer or more octets than its row allows; a subfile, 8:10, more than 9,223,372,036,854,775,807"},
    {14, "the next record begins, and a mandatory dataset is absent"},
    {15, "the octets are not of the dataset's kind"},
    {16, "1:20 is not 2"},
    {20, "mode 0 and 7:90, at the later value; mode 1 without 7:90, at the first head of 8:10"},
    {21, "announced above maximum, at the later value"},
    {22, "a subfile has more octets than 7:20 allows"},
    {23, "with this subfile's count the object is longer than announced, than the maximum, or than 9,223,372,036,854,775,807 octets"},
    {24, "the total is below announced, at the head of 9:10"},
    {25, "9:10 is not the total"},
    {30, "no message can continue with the octet"},
    {32, "the object ends before the message does"},
    {40, "after held CR comes an octet of the text that is neither LF nor the second CR, or ETX"},
    {41, "01, 02 or 04 stands in the text, with no CR held"},
    {50, "with the head's count the data of records 1 and 2 pass the limit on octets"},
    {51, "with the head the datasets of records 1 and 2 pass the limit on their number"},
    {52, "a head of 8:10 after 4,294,967,295 others"},
    {60, "the sink of the story refused what it was told; the dataset is 8:10"},
    {61, "something was refused before, and the reader was called again; the octet is that of the first refusal, the dataset 0:00"},
    {70, "memory was refused; no refusal's line has it"},
    {71, "a read failed"},
    {72, "a read was interrupted 1,000,000 times in a row"},
    {80, "the object is longer than its announced size or its maximum, or than 4,294,967,295 subfiles hold"},
    {81, "the object is shorter than its announced size"},
    {82, "a line of the story has 01, 02, 03, 04, CR or LF in it"},
    {83, "the trailer has more than 64 octets, or one that may not stand there"},
    {84, "a write failed; what is out begins the packed form"},
    {85, "a write failed before, and the packer was called again"},
    {90, "an input has more than 1,000,000 envelopes; the command prints `too many envelopes`"},
    {91, "a line has no form that may stand there, or a line is missing"},
    {92, "the script has more than 16,777,216 octets; it is told of line 0"},
    {100, "the octets have not the form of a ticket"},
    {101, "the ticket is of a version other than 1 and 2"},
    {102, "no envelope can be at the place that the ticket tells; of version 1, none by the sizes of that version"},
};

/* Each cause has the meaning in docs/reference/causes.md, and no other number has one. */
void try_sentences(void) {
    size_t at = 0;
    for (int number = 0; number < 256; number++) {
        const char *want = "";
        char means[128];
        if (at < sizeof CAUSES / sizeof CAUSES[0] && CAUSES[at].number == number)
            want = CAUSES[at++].text;
        expect(iim_cause_text((uint8_t)number, means, sizeof means) == strlen(want) && strcmp(means, want) == 0, "what a cause means");
    }
    expect(at == sizeof CAUSES / sizeof CAUSES[0], "each cause was asked for");
}

/* The line of a refusal in buffers of each length, and of the greatest numbers. */
void try_error_texts(void) {
    static const char want[] = "1 refused at octet 46 by layer record on 1:70, cause 14 Missing";
    static const char greatest[] = "18446744073709551615 refused at octet 18446744073709551615 by layer dataset on 255:255, "
                                   "cause 52 TooManySubfiles";
    iim_answer answer = {.status = IIM_REFUSED, .layer = IIM_LAYER_RECORD, .cause = 14, .rec = 1, .set = 70, .octet = 46};
    char line[128];
    for (size_t len = 0; len <= sizeof line; len++) {
        memset(line, '*', sizeof line);
        expect(iim_error_text(1, &answer, line, len) == strlen(want) && is_all((uint8_t *)line + len, sizeof line - len, '*'),
               "a line stays in its buffer");
        expect(len < sizeof want || strcmp(line, want) == 0, "the line of a refusal");
    }
    answer = (iim_answer){.status = IIM_TRUNCATED, .layer = IIM_LAYER_DATASET, .cause = 52, .rec = 255, .set = 255, .octet = UINT64_MAX};
    expect(iim_error_text(UINT64_MAX, &answer, line, sizeof line) == strlen(greatest) && strcmp(line, greatest) == 0, "the longest line");
    answer.set = 5;
    iim_error_text(2, &answer, line, sizeof line);
    expect(strstr(line, " on 255:05, ") != NULL, "a number of one digit");
    for (int status = 0; status < 256; status++) {
        answer.status = (uint8_t)status;
        bool has_line = iim_error_text(1, &answer, line, sizeof line) > 0;
        expect(has_line == (status == IIM_REFUSED || status == IIM_TRUNCATED) && has_line == (line[0] != 0), "a status without a line");
    }
}

/* Each status has its own sentence, and no other number has one. */
void try_statuses(void) {
    const char *unknown = iim_strerror(-1);
    expect(strcmp(unknown, "unknown status") == 0 && strcmp(iim_strerror(IIM_OK), "complete") == 0, "the sentence of a status");
    for (int status = IIM_OK; status <= IIM_FAILED; status++) {
        expect(strcmp(iim_strerror(status), unknown) != 0, "each status has a sentence");
        for (int other = IIM_OK; other < status; other++)
            expect(strcmp(iim_strerror(status), iim_strerror(other)) != 0, "two statuses have two sentences");
    }
    expect(strcmp(iim_strerror(IIM_SHORT), "a buffer is too short") == 0 && strcmp(iim_strerror(IIM_NO_MEMORY), "an allocation failed") == 0
               && strcmp(iim_strerror(IIM_BAD_INSTANT), "the instant is invalid") == 0
               && strcmp(iim_strerror(IIM_FAILED), "a byte was rejected before") == 0,
           "the sentences of some statuses");
    expect(strcmp(iim_strerror(IIM_FAILED + 1), unknown) == 0 && strcmp(iim_strerror(INT32_MIN), unknown) == 0, "no status");
}

/* The script, packed into buffers that are too short and with failed allocations. */
void try_packing(octets script, octets packed) {
    iim_packing packing = {0, false, false, 0}, wrong[4] = {{UINT64_MAX, false, false, 0}, {0, false, true, 5}, {0, true, true, UINT64_MAX}, {1ull << 63, false, false, 0}};
    octets out = room_for(packed.count);
    iim_answer answer;
    iim_pack(packing, script.octets, script.count, out.octets, out.count, &answer);
    expect(is_plain(&answer, IIM_DONE, 0) && answer.written == packed.count && memcmp(out.octets, packed.octets, packed.count) == 0, "the packed form");
    memset(out.octets, '*', out.count);
    iim_pack(packing, script.octets, script.count, out.octets, out.count - 1, &answer);
    expect(is_plain(&answer, IIM_SHORT, 0) && answer.written == packed.count && is_all(out.octets, out.count, '*'), "a form that has no room");
    for (int i = 0; i < 4; i++) {
        iim_pack(wrong[i], script.octets, script.count, out.octets, out.count, &answer);
        expect(is_plain(&answer, IIM_BAD_PACKING, 0) && answer.written == 0 && is_all(out.octets, out.count, '*'), "a packing that can't be");
        iim_pack_size(wrong[i], script.octets, script.count, &answer);
        expect(is_plain(&answer, IIM_BAD_PACKING, 0) && answer.written == 0, "the size of a packing that can't be");
    }
    long refused = 0;
    for (long n = 0;; n++) {
        allowed = n;
        iim_pack(packing, script.octets, script.count, out.octets, out.count, &answer);
        allowed = -1;
        if (answer.status != IIM_NO_MEMORY)
            break;
        refused++;
        expect(is_plain(&answer, IIM_NO_MEMORY, 0) && answer.written == 0 && is_all(out.octets, out.count, '*'), "memory is refused to a packer");
    }
    expect(answer.status == IIM_DONE && refused > 0, "with all memory it packs");
    free(out.octets);
}
