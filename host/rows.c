/* Document 01's rows, and document 02's, through the archive, as the firmware calls it, in both editions and by both
 * ways: heard whole, octet by octet and cut in two everywhere; read; settled; what counts and the caption; the calls
 * that name no way beside those that are told the strict one; every type in every room, every length of every class,
 * every octet at the places of contents and what is remembered behind it; entries, charges and extensions by the
 * header's readers; records that are no listener's, no draft's, no part's and no desk's; editions and ways that there
 * are not, at each export and in a listener's record. Says how many answers it compared; the first that differs ends
 * it with status 1. */
#include <stdio.h>
#include <stdlib.h>
#include <string.h>

#include "anthercup.h"

/* what a call is told */
struct book {
    uint8_t edition, way;
};

static const struct book books[] = {
    {ANTHERCUP_PRESENT, ANTHERCUP_LENIENT},
    {ANTHERCUP_OLD, ANTHERCUP_LENIENT},
    {ANTHERCUP_PRESENT, ANTHERCUP_STRICT},
    {ANTHERCUP_OLD, ANTHERCUP_STRICT},
};

static struct book lenient(uint8_t edition) { return (struct book){edition, ANTHERCUP_LENIENT}; }
static struct book strict(uint8_t edition) { return (struct book){edition, ANTHERCUP_STRICT}; }

/* document 02, Q-4: a call with one parameter of each type, in their order: annex D's charges, 15 June 14:30:59, 99
 * hours, a connection, a stored text, the country 33 */
#define EUROPEAN \
    "80690F0A303631353134333035391001371A0138200E46524600303030303032332C3435" \
    "210E2D2D2D1030303032332D2D2D2D2D220E44454D10303030373830302C3132230639393539353830024142310143" \
    "400201075003814869550101E00A3333204654202056303104"

/* octets in hex; what the listener says of them: its number, place and parameter, or the size, or nothing while it
 * waits. By the strict way the same, or 10 where a type comes before that is not listed */
static const struct row {
    const char *octets;
    unsigned number, place, parameter, size;
} rows[] = {
    {"", 0, 0, 0, 0},
    {"81", 1, 0, 0, 0},
    {"8002", 2, 1, 0, 0},
    {"8003", 0, 0, 0, 0},
    {"800B01", 3, 2, 1, 0},
    {"800A01", 0, 0, 0, 0},
    {"800C01", 3, 2, 1, 0},
    {"800D01", 0, 0, 0, 0},
    {"80160214", 0, 0, 0, 0},
    {"80170214", 4, 3, 1, 0},
    {"80170215", 4, 3, 1, 0},
    {"80FF05FD", 0, 0, 0, 0},
    {"80FF05FC", 4, 3, 1, 0},
    {"800A01083133", 5, 5, 1, 0},
    {"82030B0180", 5, 4, 1, 0},
    {"82030B01FF70", 0, 0, 0, 6},
    {"82030B01FF71", 6, 5, 0, 0},
    {"82030B01FF7000", 0, 0, 0, 6},
    {"820313010265", 0, 0, 0, 6},
    {"820613010213010549", 0, 0, 0, 9},
    {"8006040150020137EB", 0, 0, 0, 9},
    {"801101083036313531343330020534303931 32CB", 0, 0, 0, 20},
    {"800404", 3, 2, 1, 0},
    {"800405", 0, 0, 0, 0},
    {"80030500", 4, 3, 1, 0},
    /* document 02, Q-2: a 3 in February, a 31 April, a 29 February cut behind the day and whole */
    {"800A0108303233", 5, 6, 1, 0},
    {"800A010830343331", 5, 7, 1, 0},
    {"800A010830323239", 0, 0, 0, 0},
    {"800A01083032323930303030E0", 0, 0, 0, 13},
    /* document 02, Q-3: a fault in the first and the second, behind carried ones and repeats; in the checksum, none */
    {"80030200", 4, 3, 1, 0},
    {"80080202312F", 5, 5, 1, 0},
    {"80080202313204", 3, 6, 2, 0},
    {"8008020231320203", 4, 7, 2, 0},
    {"8008020231320202332F", 5, 9, 2, 0},
    {"80080202313202023334A7", 6, 10, 0, 0},
    {"80080202313202023334A6", 0, 0, 0, 11},
    {"8006050100040151", 5, 7, 2, 0},
    {"8009050100050100040151", 5, 10, 3, 0},
    {"800E05010001", 3, 5, 2, 0},
    {"8009050404010401040151", 5, 10, 2, 0},
    {"82060B01FF0B0101", 5, 7, 2, 0},
    {"82091301021301050B0101", 5, 10, 3, 0},
    {"800902013704015002012F", 5, 10, 3, 0},
    /* document 02, Q-4: the date and time of 0FH. Rooms of 9 to 13; 8, 9 and 10 octets, and what they leave */
    {"80090F", 3, 2, 1, 0},
    {"800A0F08", 0, 0, 0, 0},
    {"800A0F0A", 4, 3, 1, 0},
    {"800B0F", 3, 2, 1, 0},
    {"800C0F08", 4, 3, 1, 0},
    {"800C0F09", 4, 3, 1, 0},
    {"800C0F0A", 0, 0, 0, 0},
    {"800D0F08", 0, 0, 0, 0},
    {"800D0F0A", 4, 3, 1, 0},
    {"800E0F09", 4, 3, 1, 0},
    {"800E0F0A", 4, 3, 1, 0},
    {"800F0F0A", 0, 0, 0, 0},
    /* its days by Q-2; 29 February 23:59:59, and a minute and a second of 60 */
    {"800A0F08303233", 5, 6, 1, 0},
    {"800A0F0830343331", 5, 7, 1, 0},
    {"800A0F083036313531343330CB", 0, 0, 0, 13},
    {"800A0F0830363135313436", 5, 10, 1, 0},
    {"800C0F0A303232393233353935394D", 0, 0, 0, 15},
    {"800C0F0A303232393233353936", 5, 12, 1, 0},
    {"800C0F0A3032323932333539353A", 5, 13, 1, 0},
    /* numbers of 10H and 1AH: 20 digits and 21, and what is none */
    {"80161014", 0, 0, 0, 0},
    {"80171015", 4, 3, 1, 0},
    {"80161A14", 0, 0, 0, 0},
    {"80171A15", 4, 3, 1, 0},
    {"80031000", 4, 3, 1, 0},
    {"800310012A42", 0, 0, 0, 6},
    {"800310012B", 5, 4, 1, 0},
    {"80031A012939", 0, 0, 0, 6},
    {"80031A0141", 5, 4, 1, 0},
    /* charges: rooms around 16, lengths around 14 */
    {"800F20", 3, 2, 1, 0},
    {"8010200D", 4, 3, 1, 0},
    {"8010200E", 0, 0, 0, 0},
    {"8010200F", 4, 3, 1, 0},
    {"801121", 3, 2, 1, 0},
    {"801222", 3, 2, 1, 0},
    {"8013210E", 0, 0, 0, 0},
    {"8013220D", 4, 3, 1, 0},
    {"8014220F", 4, 3, 1, 0},
    /* annex D: 23,45 FRF; 23 units; 78 units of 0,12 DEM */
    {"8010200E46524600303030303032332C34357A", 0, 0, 0, 19},
    {"8010200E2D2D2D1030303032332D2D2D2D2DD5", 0, 0, 0, 19},
    {"8010200E44454D10303030373830302C31326E", 0, 0, 0, 19},
    /* a currency: letters A to Z, or dashes, never both */
    {"8010200E40", 5, 4, 1, 0},
    {"8010200E5B", 5, 4, 1, 0},
    {"8010200E66", 5, 4, 1, 0},
    {"8010200E462D", 5, 5, 1, 0},
    {"8010200E46522D", 5, 6, 1, 0},
    {"8010200E2D46", 5, 5, 1, 0},
    {"8010200E2D2D46", 5, 6, 1, 0},
    /* flags: behind letters not 08H, also with 10H; behind dashes 08H or 10H; all others are free */
    {"8010200E46524607", 0, 0, 0, 0},
    {"8010200E46524608", 5, 7, 1, 0},
    {"8010200E46524618", 5, 7, 1, 0},
    {"8010200E465246F7", 0, 0, 0, 0},
    {"8010200E465246F8", 5, 7, 1, 0},
    {"8010200E2D2D2D00", 5, 7, 1, 0},
    {"8010200E2D2D2DE7", 5, 7, 1, 0},
    {"8010200E2D2D2D08", 0, 0, 0, 0},
    {"8010200E2D2D2D10", 0, 0, 0, 0},
    {"8010200E2D2D2DFF", 0, 0, 0, 0},
    /* a cost: one comma, anywhere; digits else */
    {"8010200E415A41E72C303030303030303031A2", 0, 0, 0, 19},
    {"8010200E5A415A073939393939393939392C19", 0, 0, 0, 19},
    {"8010200E45555200393939393939393939391C", 0, 0, 0, 19},
    {"8010200E46524600302C302C", 5, 11, 1, 0},
    {"8010200E465246002C30303030303030302C", 5, 17, 1, 0},
    {"8010200E465246002D", 5, 8, 1, 0},
    {"8010200E465246002F", 5, 8, 1, 0},
    {"8010200E465246003A", 5, 8, 1, 0},
    {"8010200E465246003030303030303030302D", 5, 17, 1, 0},
    /* units: no comma, no dash; a price: one comma, anywhere, and no dash */
    {"8010200E4555521039393939392C3939393919", 0, 0, 0, 19},
    {"8010200E455552F73030303030393939392C5F", 0, 0, 0, 19},
    {"8010200E455552103030303031393939393938", 0, 0, 0, 19},
    {"8010200E44454D102C", 5, 8, 1, 0},
    {"8010200E44454D10303030372C", 5, 12, 1, 0},
    {"8010200E44454D102D", 5, 8, 1, 0},
    {"8010200E44454D1030303037382D", 5, 13, 1, 0},
    {"8010200E44454D1030303037382C2C", 5, 14, 1, 0},
    {"8010200E44454D1030303037382C3939392C", 5, 17, 1, 0},
    {"8010200E44454D10303030373830302C312D", 5, 17, 1, 0},
    /* units without a price: dashes in its place, and all of them */
    {"8010200E2D2D2D10303030323330", 5, 13, 1, 0},
    {"8010200E2D2D2D1030303032332C", 5, 13, 1, 0},
    {"8010200E2D2D2D1030303032332D2D2D2D30", 5, 17, 1, 0},
    {"8010200E2D2D2D102D", 5, 8, 1, 0},
    /* not available: dashes alone */
    {"8010210E2D2D2D082D2D2D2D2D2D2D2D2D2DF0", 0, 0, 0, 19},
    {"8010220E2D2D2DFF2D2D2D2D2D2D2D2D2D2DF8", 0, 0, 0, 19},
    {"8010210E2D2D2D0830", 5, 8, 1, 0},
    {"8010210E2D2D2D1830", 5, 8, 1, 0},
    {"8010210E2D2D2D082D2D2D2D2D2D2D2D2D30", 5, 17, 1, 0},
    /* a duration: rooms around 8, lengths around 6, 99:59:59, and minutes and seconds of 60 */
    {"800723", 3, 2, 1, 0},
    {"80082305", 4, 3, 1, 0},
    {"80082306", 0, 0, 0, 0},
    {"80082307", 4, 3, 1, 0},
    {"800923", 3, 2, 1, 0},
    {"800A23", 3, 2, 1, 0},
    {"800B2306", 0, 0, 0, 0},
    {"800B2307", 4, 3, 1, 0},
    {"8008230639393539353901", 0, 0, 0, 11},
    {"800823063030303030302F", 0, 0, 0, 11},
    {"80082306393A", 5, 5, 1, 0},
    {"80082306393936", 5, 6, 1, 0},
    {"800823063939353936", 5, 8, 1, 0},
    {"800823062D", 5, 4, 1, 0},
    /* texts of 30H and 31H: 20 characters and 21, 20H to 7EH */
    {"80163014", 0, 0, 0, 0},
    {"80173015", 4, 3, 1, 0},
    {"80163114", 0, 0, 0, 0},
    {"80173115", 4, 3, 1, 0},
    {"800330011F", 5, 4, 1, 0},
    {"80033001202C", 0, 0, 0, 6},
    {"800331017ECD", 0, 0, 0, 6},
    {"800331017F", 5, 4, 1, 0},
    /* 40H: rooms from 4 on, 2 to 21 octets */
    {"800340", 3, 2, 1, 0},
    {"80044001", 4, 3, 1, 0},
    {"80044002", 0, 0, 0, 0},
    {"80064002", 4, 3, 1, 0},
    {"80074002", 0, 0, 0, 0},
    {"80174015", 0, 0, 0, 0},
    {"80184016", 4, 3, 1, 0},
    /* a connection's code has one octet, 00H to 07H; a number or a subaddress has digits */
    {"80044002010732", 0, 0, 0, 7},
    {"800440020108", 5, 5, 1, 0},
    {"800440020130", 5, 5, 1, 0},
    {"8005400301", 5, 4, 1, 0},
    {"8004400200", 5, 4, 1, 0},
    {"8004400204", 5, 4, 1, 0},
    {"80054003022A23E9", 0, 0, 0, 8},
    {"80044002032D0A", 0, 0, 0, 7},
    {"800440020207", 5, 5, 1, 0},
    {"80044002032F", 5, 5, 1, 0},
    {"8005400303302B", 5, 6, 1, 0},
    /* 50H: 1 to 253 octets; marks; characters behind them, or none */
    {"80FF50FD", 0, 0, 0, 0},
    {"80FF50FC", 4, 3, 1, 0},
    {"80035000", 4, 3, 1, 0},
    {"80035001002C", 0, 0, 0, 6},
    {"8003500102", 5, 4, 1, 0},
    {"8003500106", 0, 0, 0, 0},
    {"8003500107", 5, 4, 1, 0},
    {"800350016F", 5, 4, 1, 0},
    {"8003500170", 0, 0, 0, 0},
    {"8003500181", 0, 0, 0, 0},
    {"8003500182", 5, 4, 1, 0},
    {"8003500187", 5, 4, 1, 0},
    {"80035001EF", 5, 4, 1, 0},
    {"80035001FF", 0, 0, 0, 0},
    {"80055003864869F1", 0, 0, 0, 8},
    {"800450028600", 5, 5, 1, 0},
    {"80045002861F", 5, 5, 1, 0},
    {"80055003867E7F", 5, 6, 1, 0},
    /* 55H: one octet, 00H, 01H and from 80H on */
    {"800455", 3, 2, 1, 0},
    {"80065502", 4, 3, 1, 0},
    {"820355010124", 0, 0, 0, 6},
    {"8203550102", 5, 4, 1, 0},
    {"820355017F", 5, 4, 1, 0},
    {"8203550180", 0, 0, 0, 0},
    /* E0H: rooms around 12, 10 octets; a country's code of one, two and three digits, spaces behind them alone */
    {"800BE0", 3, 2, 1, 0},
    {"800CE009", 4, 3, 1, 0},
    {"800CE00A", 0, 0, 0, 0},
    {"800CE00B", 4, 3, 1, 0},
    {"800DE0", 3, 2, 1, 0},
    {"800EE0", 3, 2, 1, 0},
    {"800FE00A", 0, 0, 0, 0},
    {"800CE00A3120204654202056303188", 0, 0, 0, 15},
    {"800CE00A3333204654202056303173", 0, 0, 0, 15},
    {"800CE00A3335314654202056303160", 0, 0, 0, 15},
    {"800CE00A20", 5, 4, 1, 0},
    {"800CE00A332D", 5, 5, 1, 0},
    {"800CE00A332033", 5, 6, 1, 0},
    {"800CE00A33332D", 5, 6, 1, 0},
    {"800CE00A3335311F", 5, 7, 1, 0},
    {"800CE00A3335314654202056307F", 5, 13, 1, 0},
    /* all of them, and a fault in the second behind a first */
    {EUROPEAN, 0, 0, 0, 108},
    {"801255010120", 3, 5, 2, 0},
    {"801355010120", 0, 0, 0, 0},
    {"800650010050020154", 4, 6, 2, 0},
};

/* document 02, Q-5: the old edition, on both sides of its limits */
static const struct row old_rows[] = {
    {"", 0, 0, 0, 0},
    {"81", 1, 0, 0, 0},
    {"8002", 2, 1, 0, 0},
    /* dates by Q-2, and their rooms */
    {"800B01", 3, 2, 1, 0},
    {"800A01", 0, 0, 0, 0},
    {"800A0108303233", 5, 6, 1, 0},
    {"800A010830343331", 5, 7, 1, 0},
    {"800A01083032323930303030E0", 0, 0, 0, 13},
    /* 18 digits and 19; what is no digit */
    {"80140212", 0, 0, 0, 0},
    {"80150213", 4, 3, 1, 0},
    {"80141212", 0, 0, 0, 0},
    {"80151213", 4, 3, 1, 0},
    {"80140212313131313131313131313131313131313131E6", 0, 0, 0, 23},
    {"8014021231313131313131313131313131313131312A", 5, 21, 1, 0},
    {"800302012F", 5, 4, 1, 0},
    {"800302013043", 6, 5, 0, 0},
    {"80030201304A", 0, 0, 0, 6},
    {"800302013A", 5, 4, 1, 0},
    {"800302012A", 5, 4, 1, 0},
    {"8003120123", 5, 4, 1, 0},
    {"8003020120", 5, 4, 1, 0},
    /* 20 characters and 21 */
    {"80160714", 0, 0, 0, 0},
    {"80170715", 4, 3, 1, 0},
    {"800307011F", 5, 4, 1, 0},
    {"800307017F", 5, 4, 1, 0},
    {"800307012055", 0, 0, 0, 6},
    /* letters, the lamp, forwarding, the calling user */
    {"8003040151", 5, 4, 1, 0},
    {"82030B0180", 5, 4, 1, 0},
    {"82030B01FF70", 0, 0, 0, 6},
    {"82030B01FF71", 6, 5, 0, 0},
    {"82030B01FF7000", 0, 0, 0, 6},
    {"8003150106", 0, 0, 0, 0},
    {"8003150107", 5, 4, 1, 0},
    {"8003150180", 5, 4, 1, 0},
    {"8003160101", 5, 4, 1, 0},
    {"8003160103", 0, 0, 0, 0},
    {"800316010E", 5, 4, 1, 0},
    {"800316010F", 0, 0, 0, 0},
    /* 08H of 1 and of 5 octets, 03H, 0DH, 0EH, 11H and 13H are carried */
    {"8003080100", 0, 0, 0, 0},
    {"80070805", 0, 0, 0, 0},
    {"800A0805000102030407014116", 0, 0, 0, 13},
    {"80030D", 0, 0, 0, 0},
    {"80FF0DFD", 0, 0, 0, 0},
    {"80FF0DFC", 4, 3, 1, 0},
    {"800D0D01410E01FF11010013020102EC", 0, 0, 0, 16},
    {"820313010265", 0, 0, 0, 6},
    {"82041302010262", 0, 0, 0, 7},
    {"8006040150020137EB", 0, 0, 0, 9},
    {"801101083036313531343330020534303931 32CB", 0, 0, 0, 20},
    /* document 02, Q-3: behind carried ones and repeats */
    {"800603014102012A", 5, 7, 2, 0},
    {"800E08010001", 3, 5, 2, 0},
    {"80071301000201", 4, 6, 2, 0},
    {"82060B01FF0B0101", 5, 7, 2, 0},
    {"820913010213010516010E", 5, 10, 3, 0},
    /* document 02, Q-4: all of these are carried, of any length and contents */
    {EUROPEAN, 0, 0, 0, 108},
    {"800B0F", 0, 0, 0, 0},
    {"800C0F0AFF", 0, 0, 0, 0},
    {"80171015", 0, 0, 0, 0},
    {"80032001005C", 0, 0, 0, 6},
    {"8010200E46524608", 0, 0, 0, 0},
    {"80034001003D", 6, 5, 0, 0},
    {"80034001083400", 0, 0, 0, 6},
    {"80035001022A", 0, 0, 0, 6},
    {"80FFE0FD", 0, 0, 0, 0},
};

/* document 02, Q-11: by the strict way alone, in the present edition */
static const struct row strict_rows[] = {
    {"8003", 0, 0, 0, 0},
    {"800305", 10, 2, 1, 0},
    {"800300", 10, 2, 1, 0},
    {"800317", 10, 2, 1, 0},
    {"8003FF", 10, 2, 1, 0},
    {"800405", 10, 2, 1, 0},
    {"800B05", 10, 2, 1, 0},
    {"80FF80", 10, 2, 1, 0},
    {"80FF05FD", 10, 2, 1, 0},
    {"800305010077", 10, 2, 1, 0},
    {"80060401500501", 10, 5, 2, 0},
    {"820613010205010061", 10, 5, 2, 0},
    {"82090B01FF13010224", 10, 8, 3, 0},
    /* document 02, Q-4: beside those that it lists */
    {"80030C", 10, 2, 1, 0},
    {"800319", 10, 2, 1, 0},
    {"80101F", 10, 2, 1, 0},
    {"80032F", 10, 2, 1, 0},
    {"800332", 10, 2, 1, 0},
    {"80033F", 10, 2, 1, 0},
    {"800341", 10, 2, 1, 0},
    {"80034F", 10, 2, 1, 0},
    {"800351", 10, 2, 1, 0},
    {"800354", 10, 2, 1, 0},
    {"800356", 10, 2, 1, 0},
    {"8003DF", 10, 2, 1, 0},
    {"8003E1", 10, 2, 1, 0},
    {"82090B01FF13010220", 3, 8, 3, 0},
    /* listed ones as ever, 3 too */
    {"800304", 0, 0, 0, 0},
    {"800404", 3, 2, 1, 0},
    {"80060D", 3, 2, 1, 0},
    {"80050D", 0, 0, 0, 0},
    {"800A040150040150 04", 3, 8, 3, 0},
    {"820313010265", 0, 0, 0, 6},
    {"82031301026500", 0, 0, 0, 6},
};

/* and in the old one, which lists eight types */
static const struct row old_strict_rows[] = {
    {"8003", 0, 0, 0, 0},
    {"800303", 10, 2, 1, 0},
    {"800308", 10, 2, 1, 0},
    {"80050D", 10, 2, 1, 0},
    {"80060D", 10, 2, 1, 0},
    {"80030E", 10, 2, 1, 0},
    {"800311", 10, 2, 1, 0},
    {"800313", 10, 2, 1, 0},
    {"800305", 10, 2, 1, 0},
    {"8003FF", 10, 2, 1, 0},
    {"800A0F", 10, 2, 1, 0},
    {"800310", 10, 2, 1, 0},
    {"80031A", 10, 2, 1, 0},
    {"801020", 10, 2, 1, 0},
    {"801021", 10, 2, 1, 0},
    {"801022", 10, 2, 1, 0},
    {"800823", 10, 2, 1, 0},
    {"800330", 10, 2, 1, 0},
    {"800331", 10, 2, 1, 0},
    {"800440", 10, 2, 1, 0},
    {"800350", 10, 2, 1, 0},
    {"800355", 10, 2, 1, 0},
    {"800CE0", 10, 2, 1, 0},
    {"820313010265", 10, 2, 1, 0},
    {"82060B01FF13010257", 10, 5, 2, 0},
    {"800607014108014FD9", 10, 5, 2, 0},
    {"80090401500401500D", 10, 8, 3, 0},
    {"800404", 3, 2, 1, 0},
    {"800B01", 3, 2, 1, 0},
    {"80150213", 4, 3, 1, 0},
    {"82030B01FF70", 0, 0, 0, 6},
    {"801C010830363135313433300201370701410B01FF12013915010616010AB0", 0, 0, 0, 31},
};

/* the rows of an edition: those of both ways, and those of the strict one */
static const struct {
    const struct row *rows, *strict;
    size_t count, strict_count;
} by_edition[] = {
    [ANTHERCUP_PRESENT] = {rows, strict_rows, sizeof rows / sizeof rows[0],
                           sizeof strict_rows / sizeof strict_rows[0]},
    [ANTHERCUP_OLD] = {old_rows, old_strict_rows, sizeof old_rows / sizeof old_rows[0],
                       sizeof old_strict_rows / sizeof old_strict_rows[0]},
};

static unsigned long compared;

static void same(const char *what, unsigned long got, unsigned long wanted) {
    compared++;
    if (got != wanted) {
        printf("rows: %s: got %lu, wanted %lu\n", what, got, wanted);
        exit(1);
    }
}

static size_t octets_of(const char *hex, uint8_t *out) {
    size_t n = 0;
    unsigned v;
    while (*hex) {
        if (*hex == ' ') { hex++; continue; }
        if (sscanf(hex, "%2x", &v) != 1) exit(2);
        out[n++] = (uint8_t)v;
        hex += 2;
    }
    return n;
}

/* the octets that a listener takes of a row in all */
static size_t taken_of(const struct row *r, size_t n) {
    if (r->number) return r->place + 1;
    return r->size ? r->size : n;
}

/* the old sheet's types, then the others of document 01, and those of document 02, Q-4 */
static int is_listed(uint8_t edition, uint8_t type) {
    static const uint8_t types[] = {0x01, 0x02, 0x04, 0x07, 0x0B, 0x12, 0x15, 0x16, 0x03, 0x08, 0x0D, 0x0E, 0x11, 0x13,
                                    0x0F, 0x10, 0x1A, 0x20, 0x21, 0x22, 0x23, 0x30, 0x31, 0x40, 0x50, 0x55, 0xE0};
    return memchr(types, type, edition == ANTHERCUP_OLD ? 8 : sizeof types) != NULL;
}

/* the place of the first type among the first n octets that is not listed, and its parameter's number; 0 for none */
static unsigned unlisted_at(uint8_t edition, const uint8_t *o, size_t n, unsigned *parameter) {
    *parameter = 0;
    for (size_t at = 2; at < n && at < 2u + o[1]; at = at + 1 < n ? at + 2 + o[at + 1] : n) {
        ++*parameter;
        if (!is_listed(edition, o[at])) return (unsigned)at;
    }
    return *parameter = 0;
}

/* a row of an edition as the way has it */
static struct row row_by(struct book b, const struct row *of) {
    struct row r = *of;
    uint8_t o[300];
    unsigned parameter, at = unlisted_at(b.edition, o, taken_of(of, octets_of(of->octets, o)), &parameter);
    if (b.way == ANTHERCUP_STRICT && at) r.number = 10, r.place = at, r.parameter = parameter, r.size = 0;
    return r;
}

/* the bit of a word that names the edition */
static uint64_t naming(uint8_t edition) { return (uint64_t)edition << 63; }

/* a refusal's word */
static uint64_t refusal(uint8_t edition, unsigned number, unsigned place, unsigned parameter) {
    return number | (uint64_t)place << 8 | (uint64_t)parameter << 56 | naming(edition);
}

/* what is said of a whole message of the edition by this way: a word with nothing more, or 10 */
static uint64_t word_by(struct book b, const uint8_t *o, size_t n) {
    unsigned parameter, at = unlisted_at(b.edition, o, n, &parameter);
    return b.way == ANTHERCUP_STRICT && at ? refusal(b.edition, 10, at, parameter) : naming(b.edition);
}

/* a reset; by the strict way also by the function that names none: the same word and record */
static uint64_t reset(struct book b, uint8_t *l) {
    uint8_t other[ANTHERCUP_LISTENER_OCTETS];
    uint64_t answer = anthercup_reset_way(b.edition, b.way, l, sizeof other);
    if (b.way == ANTHERCUP_STRICT) {
        memset(other, 0xA5, sizeof other);
        same("reset, no way named", anthercup_reset(b.edition, other, sizeof other) != answer, 0);
        same("reset, no way named: record", (unsigned long)memcmp(l, other, sizeof other), 0);
    }
    return answer;
}

/* a read into a record of the right size, likewise; the area too */
static uint64_t read_by(struct book b, const uint8_t *o, size_t n, uint8_t *draft, uint8_t *texts) {
    uint8_t other[ANTHERCUP_DRAFT_OCTETS], area[ANTHERCUP_TEXTS_OCTETS];
    memset(draft, 0x5A, sizeof other), memset(texts, 0x5A, sizeof area);
    memset(other, 0x5A, sizeof other), memset(area, 0x5A, sizeof area);
    uint64_t answer = anthercup_read_way(b.edition, b.way, o, n, draft, sizeof other, texts, sizeof area);
    if (b.way == ANTHERCUP_STRICT) {
        uint64_t again = anthercup_read(b.edition, o, n, other, sizeof other, area, sizeof area);
        same("read, no way named", again != answer, 0);
        same("read, no way named: record", (unsigned long)memcmp(draft, other, sizeof other), 0);
        same("read, no way named: area", (unsigned long)memcmp(texts, area, sizeof area), 0);
    }
    return answer;
}

static void answer_is(uint8_t edition, const struct row *r, uint64_t answer) {
    same(r->octets, anthercup_number(answer), r->number);
    same(r->octets, anthercup_place(answer), r->place);
    same(r->octets, anthercup_size(answer), r->size);
    same(r->octets, anthercup_parameter(answer), r->parameter);
    same(r->octets, anthercup_edition(answer), edition);
}

/* how many parameters have begun among the first n octets, none of them spoilt */
static unsigned begun(const uint8_t *o, size_t n) {
    unsigned count = 0;
    for (size_t at = 2; at < n && at < 2u + o[1]; at = at + 1 < n ? at + 2 + o[at + 1] : n) count++;
    return count;
}

/* octets 10 to 15 of the record, after the first n octets: the parameter's number, edition and way of the reset, 0 */
static void record_is(struct book b, const struct row *r, const uint8_t *l, const uint8_t *o, size_t n,
                      uint64_t answer) {
    same(r->octets, l[10], anthercup_listen_waits(answer) ? begun(o, n) : r->parameter);
    same("the listener's edition", l[11], b.edition);
    same("the listener's way", l[12], b.way);
    for (size_t i = 13; i < ANTHERCUP_LISTENER_OCTETS; i++) same("a listener's octets that are kept", l[i], 0);
}

static void heard_in_runs(struct book b, const struct row *r, const uint8_t *o, size_t n, size_t first, size_t then) {
    uint8_t l[ANTHERCUP_LISTENER_OCTETS];
    size_t at = 0, taken = 0;
    uint64_t answer = reset(b, l);
    same("reset", (unsigned long)answer, (unsigned long)naming(b.edition));
    answer = anthercup_listen(l, sizeof l, o, first);
    taken = anthercup_taken(answer);
    record_is(b, r, l, o, first, answer);
    for (at = first; at < n; at += then) {
        size_t run = then < n - at ? then : n - at;
        answer = anthercup_listen(l, sizeof l, o + at, run);
        taken += anthercup_taken(answer);
        record_is(b, r, l, o, at + run, answer);
    }
    answer_is(b.edition, r, answer);
    same(r->octets, taken, taken_of(r, n));
    answer_is(b.edition, r, anthercup_listen(l, sizeof l, o, 0));
}

static void all_cuttings(struct book b, const struct row *r) {
    uint8_t o[300];
    size_t n = octets_of(r->octets, o);
    for (size_t first = 0; first <= n; first++)
        heard_in_runs(b, r, o, n, first, n - first ? n - first : 1);
    heard_in_runs(b, r, o, n, 0, 1);
}

/* the record gets this number and nothing else, 16 or 17: no octet is taken, no edition named, and it stays */
static void refused_as_it_was(uint8_t *record, size_t size, unsigned number) {
    uint8_t before[64], octet = 0x80;
    memcpy(before, record, size);
    for (size_t run = 0; run < 2; run++) {
        same("16 or 17", (unsigned long)anthercup_listen(record, size, &octet, run), number);
        same("a refused record", (unsigned long)memcmp(before, record, size), 0);
    }
}

static int is_known(struct book b) { return b.edition <= ANTHERCUP_OLD && b.way <= ANTHERCUP_LENIENT; }

static struct book book_of(const uint8_t *record) { return (struct book){record[11], record[12]}; }

/* a record that is in range but for its edition and way: heard where both are known, and else 16 */
static void in_range_but_unknown(uint8_t *record) {
    uint8_t octet = 0x80;
    if (!is_known(book_of(record))) {
        refused_as_it_was(record, ANTHERCUP_LISTENER_OCTETS, ANTHERCUP_REFUSED_UNKNOWN);
        return;
    }
    uint64_t answer = anthercup_listen(record, ANTHERCUP_LISTENER_OCTETS, &octet, 0);
    unsigned most = record[12] == ANTHERCUP_STRICT ? 10 : 6;
    same("a record in range", anthercup_number(answer) <= most, 1);
    same("its edition", anthercup_edition(answer), record[11]);
}

static const uint8_t some_numbers[] = {0, 1, 2, 3, 127, 128, 254, 255};
static const uint8_t some_ways[] = {0, 1, 2, 255};

/* a reset to this edition and way of a record of this size: made, or 17, then 16, and as it was; `named` says whether
 * the way is named */
static void reset_of(struct book b, size_t size, int named) {
    uint8_t l[64];
    int fits = size == ANTHERCUP_LISTENER_OCTETS, made = fits && is_known(b);
    unsigned number = fits ? ANTHERCUP_REFUSED_UNKNOWN : ANTHERCUP_REFUSED_RECORD;
    memset(l, 0x5A, sizeof l);
    uint64_t answer = named ? anthercup_reset_way(b.edition, b.way, l, size) : anthercup_reset(b.edition, l, size);
    same("reset", (unsigned long)answer, made ? (unsigned long)naming(b.edition) : number);
    for (size_t i = 0; i < sizeof l; i++) {
        unsigned wanted = i == 11 ? b.edition : i == 12 ? b.way : 0;
        same("a record of a reset", l[i], made && i < size ? wanted : 0x5A);
    }
}

/* of every size, edition and way; of every octet every value, beside a new listener of some of them: 17 comes before
 * 16; a new listener of every edition and way */
static void records_that_are_none(void) {
    uint8_t l[64];
    for (unsigned x = 0; x < 256; x++)
        for (size_t size = 0; size < sizeof l; size++) {
            uint8_t number = (uint8_t)x;
            reset_of(strict(number), size, 0);
            reset_of(strict(number), size, 1);
            reset_of(lenient(number), size, 1);
            reset_of((struct book){ANTHERCUP_PRESENT, number}, size, 1);
            reset_of((struct book){ANTHERCUP_OLD, number}, size, 1);
            reset_of((struct book){number, number}, size, 1);
            if (size == ANTHERCUP_LISTENER_OCTETS) continue;
            memset(l, 0, sizeof l);
            l[11] = number, l[12] = some_ways[x % sizeof some_ways];
            refused_as_it_was(l, size, ANTHERCUP_REFUSED_RECORD);
        }
    for (size_t k = 0; k < sizeof some_numbers * sizeof some_ways; k++)
        for (size_t at = 0; at < ANTHERCUP_LISTENER_OCTETS; at++)
            for (unsigned v = at == 0 ? 7 : 1; v < 256; v++) {
                if (at == 1 || at == 11 || at == 12) continue; /* the sum may be anything, and so may edition and way */
                memset(l, 0, sizeof l);
                l[11] = some_numbers[k / sizeof some_ways], l[12] = some_ways[k % sizeof some_ways];
                l[at] = (uint8_t)v;
                refused_as_it_was(l, ANTHERCUP_LISTENER_OCTETS, ANTHERCUP_REFUSED_RECORD);
            }
    for (unsigned k = 0; k < 65536; k++) {
        memset(l, 0, sizeof l);
        l[11] = (uint8_t)k, l[12] = (uint8_t)(k >> 8);
        in_range_but_unknown(l);
    }
}

/* the classes that a record of this edition and way may have: carried by all ways but the strict one */
static int class_in_range(struct book b, unsigned class) {
    if (class == 0) return b.way != ANTHERCUP_STRICT;
    if (b.edition == ANTHERCUP_PRESENT) return class <= 18;
    if (b.edition == ANTHERCUP_OLD && class <= 18) return class == 1 || class == 3 || class == 5 || class == 11;
    return class <= 21;
}

/* the parameters that a refusal with this number may have, 10 not being the lenient way's in a known edition */
static int refusal_in_range(struct book b, unsigned number, unsigned parameter) {
    int carries = is_known(b) && b.way == ANTHERCUP_LENIENT;
    if ((number >= 3 && number <= 5) || (number == 10 && !carries)) return parameter >= 1 && parameter <= 85;
    return parameter == 0 && (number == 1 || number == 2 || number == 6);
}

/* a class, before a length and in contents, and a refusal's number, with parameters that some have */
static void code_in_range(struct book b, uint8_t code) {
    static const uint8_t parameters[] = {0, 1, 85, 86};
    uint8_t before_length[ANTHERCUP_LISTENER_OCTETS] = {3, 0, 3, 0, code, 0, 0, 0, 3, 0, 1, b.edition, b.way};
    uint8_t in_contents[ANTHERCUP_LISTENER_OCTETS] = {4, 0, 4, 0, code, 1, 0, 0, 0, 0, 1, b.edition, b.way};
    if (class_in_range(b, code)) {
        in_range_but_unknown(before_length);
        in_range_but_unknown(in_contents);
    } else {
        refused_as_it_was(before_length, sizeof before_length, ANTHERCUP_REFUSED_RECORD);
        refused_as_it_was(in_contents, sizeof in_contents, ANTHERCUP_REFUSED_RECORD);
    }
    for (size_t i = 0; i < sizeof parameters; i++) {
        uint8_t refused[ANTHERCUP_LISTENER_OCTETS] = {6, 0, 9, 0, 0, 0, 0, 0, 0, code, parameters[i], b.edition, b.way};
        if (refusal_in_range(b, code, parameters[i])) in_range_but_unknown(refused);
        else refused_as_it_was(refused, sizeof refused, ANTHERCUP_REFUSED_RECORD);
    }
}

/* every code by every edition and some ways, and by every way in some editions */
static void codes_in_range(void) {
    for (unsigned x = 0; x < 256; x++)
        for (unsigned code = 0; code < 256; code++)
            for (size_t k = 0; k < sizeof some_ways; k++) {
                code_in_range((struct book){(uint8_t)x, some_ways[k]}, (uint8_t)code);
                code_in_range((struct book){some_ways[k], (uint8_t)x}, (uint8_t)code);
            }
}

/* by the old sheet, and by document 01 of what both editions have: may contents of this class begin so? */
static int may_stand(unsigned class, unsigned x) {
    switch (class) {
    case 0: return 1;
    case 1: return x == '0' || x == '1';
    case 3: return x == 'O' || x == 'P';
    case 5: return x == 0x00 || x == 0xFF;
    case 11: return x >= 0x20 && x <= 0x7E;
    case 19: return x >= '0' && x <= '9';
    case 20: return x <= 0x06;
    default: return x == 0 || (x >= 3 && x <= 5) || (x >= 0x0A && x <= 0x0D) || x == 0x0F;
    }
}

/* every octet in contents of every class of the old edition, and of texts in a later place too */
static void old_contents(struct book b) {
    for (unsigned class = 0; class <= 21; class++)
        for (unsigned x = 0; x < 256 && class_in_range(b, class); x++)
            for (uint8_t index = 0; index < (class == 11 || class == 19 ? 2 : 1); index++) {
                uint8_t l[ANTHERCUP_LISTENER_OCTETS] = {4, 7, (uint8_t)(4 + index), 0, (uint8_t)class, 8, index, 0, 0,
                                                        0, 1, ANTHERCUP_OLD, b.way}, octet = (uint8_t)x;
                uint64_t answer = anthercup_listen(l, sizeof l, &octet, 1);
                same("an octet of the old edition", anthercup_number(answer), may_stand(class, x) ? 0 : 5);
                same("is taken", anthercup_taken(answer), 1);
                same("by the old edition", anthercup_edition(answer), ANTHERCUP_OLD);
                same("and stays of its way", l[12], b.way);
            }
}

/* a record that octets led to, with another edition or way: 16 where one is unknown; else heard where it has the class
 * and the refusal's number, and else 17 */
static void of_another(const uint8_t *record, struct book b) {
    uint8_t l[ANTHERCUP_LISTENER_OCTETS];
    memcpy(l, record, sizeof l);
    l[11] = b.edition, l[12] = b.way;
    if (((l[0] == 3 || l[0] == 4) && !class_in_range(b, l[4])) || (l[0] == 6 && !refusal_in_range(b, l[9], l[10])))
        refused_as_it_was(l, sizeof l, ANTHERCUP_REFUSED_RECORD);
    else
        in_range_but_unknown(l);
}

/* by document 01, may a parameter of this type stand in the room? */
static int fits_room(uint8_t edition, uint8_t type, unsigned room) {
    static const uint8_t ones[] = {0x04, 0x0B, 0x15, 0x16, 0x08, 0x11, 0x13, 0x55};
    if (type == 0x01) return room == 10 || room >= 13;
    if (memchr(ones, type, edition == ANTHERCUP_OLD ? 4 : sizeof ones)) return room == 3 || room >= 6;
    if (edition == ANTHERCUP_OLD) return room >= 3;
    switch (type) {
    case 0x0D: return room == 5 || room >= 8;
    case 0x0F: return room == 10 || room >= 12;
    case 0x20:
    case 0x21:
    case 0x22: return room == 16 || room >= 19;
    case 0x23: return room == 8 || room >= 11;
    case 0x40: return room >= 4;
    case 0xE0: return room == 12 || room >= 15;
    default: return room >= 3;
    }
}

/* every type in every room, those of 1 and 2 too, to which no octets lead: by the strict way 10 comes ahead of 3 */
static void types_in_rooms(struct book b) {
    for (unsigned room = 1; room < 256; room++)
        for (unsigned x = 0; x < 256; x++) {
            uint8_t l[ANTHERCUP_LISTENER_OCTETS] = {2, 0, 2, 0, 0, 0, 0, 0, (uint8_t)room, 0, 0, b.edition, b.way};
            uint8_t type = (uint8_t)x;
            unsigned number = fits_room(b.edition, type, room) ? 0 : 3;
            if (b.way == ANTHERCUP_STRICT && !is_listed(b.edition, type)) number = 10;
            if (room < 3) l[2] = 5, l[10] = 1;
            unsigned place = number ? l[2] : 0, parameter = number ? l[10] + 1u : 0;
            uint64_t answer = anthercup_listen(l, sizeof l, &type, 1);
            same("a type in a room", answer != (refusal(b.edition, number, place, parameter) | (uint64_t)1 << 40), 0);
            same("its record", l[9], number);
        }
}

/* every length of every class in every room, by document 01's table, the old sheet's and document 02, Q-4 */
static void lengths_in_rooms(struct book b) {
    static const uint8_t least[] = {1, 8, 1, 1, 1, 1, 3, 1, 1, 1, 1, 1, 8, 14, 6, 2, 1, 1, 10, 1, 1, 1};
    static const uint8_t most[] = {253, 8, 20, 1, 50, 1, 3, 1, 1, 1, 1, 20, 10, 14, 6, 21, 253, 1, 10, 18, 1, 1};
    for (unsigned class = 0; class < sizeof least; class++)
        for (unsigned room = 1; room < 256 && class_in_range(b, class); room++)
            for (unsigned x = 0; x < 256; x++) {
                uint8_t l[ANTHERCUP_LISTENER_OCTETS] = {3, 0, 3, 0, (uint8_t)class, 0, 0, 0, (uint8_t)room, 0, 1,
                                                        b.edition, b.way}, length = (uint8_t)x;
                int fits = x >= least[class] && x <= most[class] && (x + 2 == room || x + 5 <= room);
                if (class == 12 && x == 9) fits = 0;
                if (room < 3) l[2] = 5;
                unsigned place = l[2];
                uint64_t answer = anthercup_listen(l, sizeof l, &length, 1);
                uint64_t wanted = fits ? naming(b.edition) : refusal(b.edition, 4, place, 1);
                same("a length in a room", answer != (wanted | (uint64_t)1 << 40), 0);
                same("what is left", l[8], fits ? room - 2 - x : 0);
                same("nothing remembered", l[7], 0);
            }
}

/* a place in contents: which octets may stand there, in ranges, and what is remembered behind them. LAST is the last
 * digit: the octet less 30H, 0 where it is below */
enum { LAST = 256 };

#define DIGITS(then) {'0', '9', then}
#define NUMBERS(then) DIGITS(then), {'(', '*', then}, {'#', '#', then}, {' ', ' ', then}, {'-', '-', then}
#define CHARACTERS {0x20, 0x7E, 0}
#define ANY(then) {0x00, 0xFF, then}
#define BOTH(...) 1, __VA_ARGS__}, {12, __VA_ARGS__

static const struct place {
    uint8_t class, length, index, memory, ranges;
    struct {
        unsigned low, high, then;
    } may[8];
} contents[] = {
    /* a date and a moment: tens of the month, its days, how many are left, the last digit */
    {BOTH(20, 0, 0, 1, {{'0', '1', LAST}})},
    {BOTH(20, 1, 0, 8, {{'1', '1', 31}, {'2', '2', 29}, {'3', '3', 31}, {'4', '4', 30}, {'5', '5', 31}, {'6', '6', 30},
                        {'7', '8', 31}, {'9', '9', 30}})},
    {BOTH(20, 1, 1, 3, {{'0', '0', 31}, {'1', '1', 30}, {'2', '2', 31}})},
    {BOTH(20, 1, 2, 0, {{0, 0, 0}})},
    {BOTH(20, 2, 29, 3, {{'0', '0', 29}, {'1', '1', 19}, {'2', '2', 9}})},
    {BOTH(20, 2, 30, 4, {{'0', '0', 30}, {'1', '1', 20}, {'2', '2', 10}, {'3', '3', 0}})},
    {BOTH(20, 3, 29, 1, {{'1', '9', LAST}})},
    {BOTH(20, 3, 21, 1, {{'0', '9', LAST}})},
    {BOTH(20, 3, 1, 1, {{'0', '1', LAST}})},
    {BOTH(20, 3, 0, 1, {{'0', '0', LAST}})},
    {BOTH(20, 4, 9, 1, {{'0', '2', LAST}})},
    {BOTH(20, 5, 1, 1, {DIGITS(LAST)})},
    {BOTH(20, 5, 2, 1, {{'0', '3', LAST}})},
    {BOTH(20, 6, 3, 1, {{'0', '5', LAST}})},
    {BOTH(20, 7, 5, 1, {DIGITS(LAST)})},
    {BOTH(20, 7, 6, 0, {{0, 0, 0}})},
    /* from the seconds on: a date has none */
    {1, 20, 8, 9, 1, {ANY(LAST)}},
    {12, 20, 8, 9, 1, {{'0', '5', LAST}}},
    {12, 20, 9, 5, 1, {DIGITS(LAST)}},
    {12, 20, 9, 6, 0, {{0, 0, 0}}},
    {12, 20, 10, 6, 1, {ANY(LAST)}},
    /* numbers and short texts */
    {2, 20, 0, 0, 5, {NUMBERS(0)}},
    {2, 20, 18, 7, 5, {NUMBERS(0)}},
    {11, 20, 0, 0, 1, {CHARACTERS}},
    {11, 20, 18, 7, 1, {CHARACTERS}},
    /* a charge's currency; with other memories no octet may stand behind its first */
    {13, 20, 0, 0, 2, {{'A', 'Z', 0}, {'-', '-', 1}}},
    {13, 20, 0, 9, 2, {{'A', 'Z', 0}, {'-', '-', 1}}},
    {13, 20, 1, 0, 1, {{'A', 'Z', 0}}},
    {13, 20, 2, 0, 1, {{'A', 'Z', 0}}},
    {13, 20, 1, 1, 1, {{'-', '-', 1}}},
    {13, 20, 2, 1, 1, {{'-', '-', 1}}},
    {13, 20, 1, 2, 0, {{0, 0, 0}}},
    {13, 20, 2, 255, 0, {{0, 0, 0}}},
    {13, 20, 3, 2, 0, {{0, 0, 0}}},
    /* a cost, and behind its comma */
    {13, 20, 4, 0, 2, {DIGITS(0), {',', ',', 1}}},
    {13, 20, 13, 0, 2, {DIGITS(0), {',', ',', 1}}},
    {13, 20, 4, 1, 1, {DIGITS(1)}},
    {13, 20, 13, 1, 1, {DIGITS(1)}},
    /* units and a price, and behind its comma; units alone; nothing */
    {13, 20, 4, 2, 1, {DIGITS(2)}},
    {13, 20, 8, 2, 1, {DIGITS(2)}},
    {13, 20, 9, 2, 2, {DIGITS(2), {',', ',', 3}}},
    {13, 20, 13, 2, 2, {DIGITS(2), {',', ',', 3}}},
    {13, 20, 4, 3, 1, {DIGITS(3)}},
    {13, 20, 13, 3, 1, {DIGITS(3)}},
    {13, 20, 4, 4, 1, {DIGITS(4)}},
    {13, 20, 8, 4, 1, {DIGITS(4)}},
    {13, 20, 9, 4, 1, {{'-', '-', 4}}},
    {13, 20, 13, 4, 1, {{'-', '-', 4}}},
    {13, 20, 4, 5, 1, {{'-', '-', 5}}},
    {13, 20, 13, 5, 1, {{'-', '-', 5}}},
    {13, 20, 4, 6, 0, {{0, 0, 0}}},
    {13, 20, 13, 255, 0, {{0, 0, 0}}},
    {13, 20, 14, 6, 1, {ANY(0)}},
    /* a duration */
    {14, 20, 0, 0, 1, {DIGITS(LAST)}},
    {14, 20, 1, 9, 1, {DIGITS(LAST)}},
    {14, 20, 1, 10, 0, {{0, 0, 0}}},
    {14, 20, 2, 9, 1, {{'0', '5', LAST}}},
    {14, 20, 3, 5, 1, {DIGITS(LAST)}},
    {14, 20, 3, 6, 0, {{0, 0, 0}}},
    {14, 20, 4, 9, 1, {{'0', '5', LAST}}},
    {14, 20, 5, 5, 1, {DIGITS(LAST)}},
    {14, 20, 5, 6, 0, {{0, 0, 0}}},
    {14, 20, 6, 6, 1, {ANY(LAST)}},
    /* a terminal of two octets, of one and of more; the memory stays behind its mark */
    {15, 2, 0, 0, 2, {{0x01, 0x01, 1}, {0x02, 0x03, 0}}},
    {15, 2, 0, 1, 2, {{0x01, 0x01, 1}, {0x02, 0x03, 0}}},
    {15, 1, 0, 0, 1, {{0x02, 0x03, 0}}},
    {15, 3, 0, 0, 1, {{0x02, 0x03, 0}}},
    {15, 21, 0, 0, 1, {{0x02, 0x03, 0}}},
    {15, 2, 1, 1, 1, {{0x00, 0x07, 1}}},
    {15, 2, 1, 0, 5, {NUMBERS(0)}},
    {15, 21, 19, 1, 1, {{0x00, 0x07, 1}}},
    {15, 21, 19, 0, 5, {NUMBERS(0)}},
    {15, 21, 19, 2, 5, {NUMBERS(2)}},
    {15, 21, 1, 255, 5, {NUMBERS(255)}},
    /* a display */
    {16, 253, 0, 0, 6, {{0x00, 0x01, 0}, {0x03, 0x06, 0}, {0x70, 0x7F, 0}, {0x80, 0x81, 0}, {0x83, 0x86, 0},
                        {0xF0, 0xFF, 0}}},
    {16, 253, 0, 7, 6, {{0x00, 0x01, 0}, {0x03, 0x06, 0}, {0x70, 0x7F, 0}, {0x80, 0x81, 0}, {0x83, 0x86, 0},
                        {0xF0, 0xFF, 0}}},
    {16, 253, 1, 0, 1, {CHARACTERS}},
    {16, 253, 251, 7, 1, {CHARACTERS}},
    /* a service */
    {17, 1, 0, 0, 2, {{0x00, 0x01, 0}, {0x80, 0xFF, 0}}},
    {17, 3, 0, 7, 2, {{0x00, 0x01, 0}, {0x80, 0xFF, 0}}},
    {17, 3, 1, 7, 1, {ANY(0)}},
    /* an extension */
    {18, 20, 0, 0, 1, {DIGITS(0)}},
    {18, 20, 0, 1, 1, {DIGITS(0)}},
    {18, 20, 1, 0, 2, {DIGITS(0), {' ', ' ', 1}}},
    {18, 20, 1, 1, 2, {DIGITS(0), {' ', ' ', 1}}},
    {18, 20, 2, 0, 2, {DIGITS(0), {' ', ' ', 0}}},
    {18, 20, 2, 1, 1, {{' ', ' ', 0}}},
    {18, 20, 2, 2, 2, {DIGITS(0), {' ', ' ', 0}}},
    {18, 20, 3, 1, 1, {CHARACTERS}},
    {18, 20, 9, 1, 1, {CHARACTERS}},
    {18, 20, 10, 1, 1, {ANY(0)}},
};

/* one octet at a place in contents: taken with this memory behind it, or 5; behind the last octet a type comes */
static void octet_at(struct book b, const struct place *p, unsigned x, int may, unsigned then) {
    uint8_t l[ANTHERCUP_LISTENER_OCTETS] = {4, 7, (uint8_t)(4 + p->index), 0, p->class, p->length, p->index, p->memory,
                                            0, 0, 1, b.edition, b.way}, octet = (uint8_t)x;
    unsigned last = p->index + 1u == p->length;
    if (4u + p->index > 255) l[3] = 1;
    uint64_t answer = anthercup_listen(l, sizeof l, &octet, 1);
    uint64_t wanted = may ? naming(b.edition) : refusal(b.edition, 5, 4u + p->index, 1);
    same("an octet of contents", answer != (wanted | (uint64_t)1 << 40), 0);
    same("what comes next", l[0], !may ? 6 : last ? 2 : 4);
    same("what is remembered", l[7], may && !last ? then : 0);
    same("the index", l[6], may && !last ? p->index + 1u : 0);
}

/* by the present edition, and by the old one where it has the class */
static void all_contents(struct book b) {
    for (size_t i = 0; i < sizeof contents / sizeof contents[0]; i++)
        for (unsigned x = 0; x < 256 && class_in_range(b, contents[i].class); x++) {
            const struct place *p = &contents[i];
            unsigned may = 0, then = 0;
            for (size_t k = 0; k < p->ranges; k++)
                if (p->may[k].low <= x && x <= p->may[k].high) may = 1, then = p->may[k].then;
            if (then == LAST) then = x >= '0' ? x - '0' : 0;
            octet_at(b, p, x, (int)may, then);
        }
}

/* the flags of a charge: 08H not behind letters, 08H or 10H behind dashes */
static void charge_flags(struct book b) {
    for (unsigned x = 0; x < 256; x++) {
        struct place letters = {13, 14, 3, 0, 0, {{0, 0, 0}}}, dashes = {13, 14, 3, 1, 0, {{0, 0, 0}}};
        octet_at(b, &letters, x, x % 16 < 8, x / 16 % 2 ? 2 : 0);
        octet_at(b, &dashes, x, x % 16 >= 8 || x / 16 % 2, x % 16 >= 8 ? 5 : 4);
    }
}

/* records that octets lead to, with every value of octet 11 and of octet 12, and with both of some */
static void other_books(struct book b, const struct row *r) {
    uint8_t o[300], l[ANTHERCUP_LISTENER_OCTETS];
    size_t n = octets_of(r->octets, o);
    for (size_t first = 0; first <= n; first++) {
        reset(b, l);
        anthercup_listen(l, sizeof l, o, first);
        for (unsigned v = 0; v < 256; v++) {
            of_another(l, (struct book){(uint8_t)v, b.way});
            of_another(l, (struct book){b.edition, (uint8_t)v});
        }
        for (size_t k = 0; k < sizeof some_numbers * sizeof some_ways; k++)
            of_another(l, (struct book){some_numbers[k / sizeof some_ways], some_ways[k % sizeof some_ways]});
    }
}

/* a record with this parameter's number, which is in range or not: 17, then 16, or said, kept and stepped */
static void parameter_of(const uint8_t *record, uint8_t v, int good) {
    uint8_t l[ANTHERCUP_LISTENER_OCTETS], octet = 0x05;
    memcpy(l, record, sizeof l);
    l[10] = v;
    if (!good || !is_known(book_of(l))) {
        refused_as_it_was(l, sizeof l, good ? ANTHERCUP_REFUSED_UNKNOWN : ANTHERCUP_REFUSED_RECORD);
        return;
    }
    uint64_t answer = anthercup_listen(l, sizeof l, &octet, 0);
    same("a parameter in range", anthercup_number(answer), record[9]);
    same("and said", anthercup_parameter(answer), record[9] ? v : 0);
    same("and kept", l[10], v);
    same("with its edition", l[11], anthercup_edition(answer));
    answer = anthercup_listen(l, sizeof l, &octet, 1);
    same("and stepped", anthercup_number(answer) == ANTHERCUP_REFUSED_RECORD, 0);
    same("by its way", l[12], record[12]);
    answer = anthercup_listen(l, sizeof l, &octet, 0);
    same("and in range again", anthercup_number(answer) == ANTHERCUP_REFUSED_RECORD, 0);
}

/* records in range but for octet 10, the parameter's number: of its 256 values those from low to high are in range,
 * none where low is above high */
static void parameters_in_range(void) {
    static const struct {
        uint8_t stage, low, high, class, length, index, room, number;
        unsigned place;
    } cases[] = {
        {0, 0, 0, 0, 0, 0, 0, 0, 0},       {1, 0, 0, 0, 0, 0, 0, 0, 1},
        /* before a type or the checksum: three octets each behind the first two */
        {2, 0, 0, 0, 0, 0, 3, 0, 2},       {2, 0, 0, 0, 0, 0, 3, 0, 4},       {2, 0, 1, 0, 0, 0, 0, 0, 5},
        {2, 0, 1, 0, 0, 0, 9, 0, 7},       {2, 0, 2, 0, 0, 0, 9, 0, 8},       {2, 0, 84, 0, 0, 0, 3, 0, 254},
        {2, 0, 84, 0, 0, 0, 0, 0, 256},    {2, 0, 85, 0, 0, 0, 0, 0, 257},
        /* before a length: the type of the last has come */
        {3, 1, 0, 2, 0, 0, 4, 0, 2},       {3, 1, 1, 2, 0, 0, 3, 0, 3},       {3, 1, 1, 2, 0, 0, 3, 0, 5},
        {3, 1, 2, 2, 0, 0, 3, 0, 6},       {3, 1, 84, 2, 0, 0, 4, 0, 254},    {3, 1, 85, 2, 0, 0, 3, 0, 255},
        {3, 1, 85, 2, 0, 0, 1, 0, 257},
        /* in contents: its length too, and what has come of them */
        {4, 1, 0, 0, 1, 0, 3, 0, 3},       {4, 1, 1, 0, 1, 0, 0, 0, 4},       {4, 1, 1, 0, 1, 0, 3, 0, 6},
        {4, 1, 2, 0, 1, 0, 3, 0, 7},       {4, 1, 0, 0, 2, 1, 0, 0, 4},       {4, 1, 1, 0, 2, 1, 0, 0, 5},
        {4, 1, 1, 0, 9, 4, 9, 0, 10},      {4, 1, 2, 0, 9, 4, 9, 0, 11},      {4, 1, 84, 0, 1, 0, 0, 0, 255},
        {4, 1, 85, 0, 1, 0, 0, 0, 256},    {4, 1, 1, 0, 253, 252, 0, 0, 256}, {4, 1, 0, 0, 253, 252, 0, 0, 255},
        /* a message; a refusal, of a parameter with 3, 4, 5 and 10 */
        {5, 0, 0, 0, 0, 0, 0, 0, 6},       {5, 0, 0, 0, 0, 0, 0, 0, 258},     {6, 0, 0, 0, 0, 0, 0, 1, 0},
        {6, 0, 0, 0, 0, 0, 0, 2, 1},       {6, 1, 85, 0, 0, 0, 0, 3, 2},      {6, 1, 85, 0, 0, 0, 0, 4, 257},
        {6, 1, 85, 0, 0, 0, 0, 5, 9},      {6, 0, 0, 0, 0, 0, 0, 6, 257},     {6, 1, 85, 0, 0, 0, 0, 10, 2},
        {6, 1, 85, 0, 0, 0, 0, 10, 257},
    };
    for (size_t i = 0; i < sizeof cases / sizeof cases[0]; i++)
        for (size_t k = 0; k < sizeof some_numbers * sizeof some_ways; k++) {
            struct book b = {some_numbers[k / sizeof some_ways], some_ways[k % sizeof some_ways]};
            uint8_t class = cases[i].class;
            if (class == 2 && b.edition == ANTHERCUP_OLD) class = 19;
            if (cases[i].stage == 4 && b.way == ANTHERCUP_STRICT) class = 3;
            uint8_t l[ANTHERCUP_LISTENER_OCTETS] = {cases[i].stage, 0, (uint8_t)cases[i].place,
                                                    (uint8_t)(cases[i].place >> 8), class, cases[i].length,
                                                    cases[i].index, 0, cases[i].room, cases[i].number, 0,
                                                    b.edition, b.way};
            int none = cases[i].stage == 6 && !refusal_in_range(b, cases[i].number, cases[i].low);
            for (unsigned v = 0; v < 256; v++)
                parameter_of(l, (uint8_t)v, !none && v >= cases[i].low && v <= cases[i].high);
        }
}

/* the whole read of each row: as the listener, but 8 at the number of octets where it waits, and 7 where octets
 * follow */
static void read_whole(struct book b, const struct row *r) {
    uint8_t o[300], draft[ANTHERCUP_DRAFT_OCTETS], texts[ANTHERCUP_TEXTS_OCTETS], desk[ANTHERCUP_DESK_OCTETS];
    size_t n = octets_of(r->octets, o);
    uint64_t wanted = refusal(b.edition, r->number, r->place, r->parameter);
    if (!r->number && !r->size) wanted = refusal(b.edition, ANTHERCUP_REFUSED_EARLY, (unsigned)n, 0);
    if (r->size && r->size < n) wanted = refusal(b.edition, ANTHERCUP_REFUSED_FOLLOWED, r->size, 0);
    uint64_t answer = read_by(b, o, n, draft, texts);
    same(r->octets, anthercup_number(answer), anthercup_number(wanted));
    same(r->octets, anthercup_place(answer), anthercup_place(wanted));
    same(r->octets, anthercup_parameter(answer), anthercup_parameter(wanted));
    same(r->octets, anthercup_edition(answer), b.edition);
    if (!anthercup_number(answer)) same("a draft's edition", anthercup_draft_edition(draft), b.edition);
    else
        for (size_t i = 0; i < sizeof draft; i++) same("a draft that stays", draft[i], 0x5A);
    answer = anthercup_counted(b.edition, b.way, o, n, 0xFF);
    same(r->octets, (unsigned long)answer, (unsigned long)wanted);
    anthercup_new_desk(desk, sizeof desk);
    answer = anthercup_settle(b.edition, b.way, desk, sizeof desk, o, n);
    same(r->octets, (unsigned long)answer, (unsigned long)wanted);
}

/* an accepted message of the strict way is one of the lenient way: the same word, record and area */
static void lenient_too(uint8_t edition, const struct row *r) {
    uint8_t o[300], drafts[2][ANTHERCUP_DRAFT_OCTETS], areas[2][ANTHERCUP_TEXTS_OCTETS];
    size_t n = octets_of(r->octets, o);
    uint64_t answer = read_by(strict(edition), o, n, drafts[0], areas[0]);
    if (anthercup_number(answer)) return;
    same("lenient too", read_by(lenient(edition), o, n, drafts[1], areas[1]) != answer, 0);
    same("lenient too: draft", (unsigned long)memcmp(drafts[0], drafts[1], sizeof drafts[0]), 0);
    same("lenient too: area", (unsigned long)memcmp(areas[0], areas[1], sizeof areas[0]), 0);
}

/* an edition or a way that there is not, or both, at each export: 16 alone behind 17, nothing lent changes */
static void at_exports(struct book b, const uint8_t *o, size_t n) {
    uint8_t draft[ANTHERCUP_DRAFT_OCTETS], texts[ANTHERCUP_TEXTS_OCTETS], desk[ANTHERCUP_DESK_OCTETS] = {0};
    uint8_t part[ANTHERCUP_PART_OCTETS], was[ANTHERCUP_DRAFT_OCTETS], no_desk[ANTHERCUP_DESK_OCTETS] = {2};
    memset(was, 0x5A, sizeof was), memset(draft, 0x5A, sizeof draft);
    memset(texts, 0x5A, sizeof texts), memset(part, 0x5A, sizeof part);
    uint64_t answer = anthercup_counted(b.edition, b.way, o, n, 0x02);
    same("counted: 16", (unsigned long)answer, ANTHERCUP_REFUSED_UNKNOWN);
    for (size_t less = 0; less < 2; less++) {
        unsigned number = less ? ANTHERCUP_REFUSED_RECORD : ANTHERCUP_REFUSED_UNKNOWN;
        answer = anthercup_read_way(b.edition, b.way, o, n, draft, sizeof draft - less, texts, sizeof texts);
        same("read: 16", (unsigned long)answer, number);
        if (b.way == ANTHERCUP_STRICT) {
            answer = anthercup_read(b.edition, o, n, draft, sizeof draft - less, texts, sizeof texts);
            same("read, no way named: 16", (unsigned long)answer, number);
        }
        answer = anthercup_caption(b.edition, b.way, o, n, o, n, part, sizeof part - less);
        same("caption: 16", (unsigned long)answer, number);
        answer = anthercup_settle(b.edition, b.way, desk, sizeof desk - less, o, n);
        same("settle: 16", (unsigned long)answer, number);
    }
    answer = anthercup_settle(b.edition, b.way, no_desk, sizeof no_desk, o, n);
    same("settle: 17 first", (unsigned long)answer, ANTHERCUP_REFUSED_RECORD);
    same("a draft that stays", (unsigned long)memcmp(draft, was, sizeof draft), 0);
    same("texts that stay", (unsigned long)memcmp(texts, was, sizeof texts), 0);
    same("a part that stays", (unsigned long)memcmp(part, was, sizeof part), 0);
    for (size_t i = 0; i < sizeof desk; i++) same("a desk that stays", desk[i], 0);
}

/* every edition that there is not by both ways and by others, both editions by some ways that there are not */
static void unknown_ones(const struct row *r) {
    static const uint8_t ways[] = {2, 3, 128, 255};
    uint8_t o[300];
    size_t n = octets_of(r->octets, o);
    for (unsigned e = 2; e < 256; e++)
        for (size_t k = 0; k < sizeof some_ways; k++) at_exports((struct book){(uint8_t)e, some_ways[k]}, o, n);
    for (size_t k = 0; k < sizeof ways; k++) {
        at_exports((struct book){ANTHERCUP_PRESENT, ways[k]}, o, n);
        at_exports((struct book){ANTHERCUP_OLD, ways[k]}, o, n);
    }
}

/* document 02, Q-3: behind 84 parameters, carried, repeated or in turn, a fault in the 85th; a checksum is in none. By
 * the strict way none is carried, and an unlisted type is a fault */
static void last_parameter(struct book b) {
    static const char *const before[][2] = {
        {"040150", "040150"}, {"0B01FF", "040150"}, {"050100", "050100"}, {"050104", "040150"}};
    static const struct row ends[] = {
        {"01", 3, 254, 85, 0},     {"0202", 4, 255, 85, 0},   {"02012F", 5, 256, 85, 0},
        {"020130", 0, 0, 0, 0},    {"020130FF", 6, 257, 0, 0}, {"0D", 3, 254, 85, 0},
        {"05", 0, 0, 0, 0},
    };
    size_t sorts = b.way == ANTHERCUP_STRICT ? 2 : sizeof before / sizeof before[0];
    char hex[800];
    for (size_t sort = 0; sort < sorts; sort++)
        for (size_t i = 0; i < sizeof ends / sizeof ends[0]; i++) {
            struct row r = ends[i];
            strcpy(hex, "80FF");
            for (size_t k = 0; k < 84; k++) strcat(hex, before[sort][k % 2]);
            strcat(hex, ends[i].octets);
            r.octets = hex;
            /* the old edition does not list 0DH: it stands in any room, or in none */
            if (strcmp(ends[i].octets, "0D") == 0 && b.edition == ANTHERCUP_OLD)
                r.number = r.place = r.parameter = 0;
            r = row_by(b, &r);
            all_cuttings(b, &r);
            read_whole(b, &r);
        }
}

/* where the contents of a type that count stand: start and length by hand, 0 and 0 where none count; by the strict way
 * the same, or 10 */
static void counted_in(uint8_t edition, const char *octets, uint8_t type, unsigned start, unsigned length) {
    uint8_t o[300];
    size_t n = octets_of(octets, o);
    for (uint8_t way = 0; way <= ANTHERCUP_LENIENT; way++) {
        uint64_t wanted = word_by((struct book){edition, way}, o, n);
        int taken = anthercup_number(wanted) == 0;
        uint64_t answer = anthercup_counted(edition, way, o, n, type);
        same(octets, (unsigned long)anthercup_counts(answer), taken && start != 0);
        same(octets, anthercup_counted_start(answer), taken ? start : 0);
        same(octets, anthercup_counted_length(answer), taken ? length : 0);
        if (taken) wanted += ((uint64_t)length << 24) + ((uint64_t)start << 40);
        same(octets, answer != wanted, 0);
    }
}

static void counted_is(const char *octets, uint8_t type, unsigned start, unsigned length) {
    counted_in(ANTHERCUP_PRESENT, octets, type, start, length);
}

static const char call[] = "801101083036313531343330020534303931 32CB";

static void counts(void) {
    counted_is(call, ANTHERCUP_PARAMETER_TIME, 4, 8);
    counted_is(call, ANTHERCUP_PARAMETER_CALLER, 14, 5);
    for (unsigned type = 0; type < 256; type++)
        if (type != ANTHERCUP_PARAMETER_TIME && type != ANTHERCUP_PARAMETER_CALLER)
            counted_is(call, (uint8_t)type, 0, 0);
    counted_is("8006040150020137EB", ANTHERCUP_PARAMETER_CALLER_ABSENT, 4, 1);
    counted_is("8006040150020137EB", ANTHERCUP_PARAMETER_CALLER, 0, 0);
    counted_is("8006020137040150EB", ANTHERCUP_PARAMETER_CALLER, 4, 1);
    counted_is("8006020137040150EB", ANTHERCUP_PARAMETER_CALLER_ABSENT, 0, 0);
    counted_is("800608014F070141D9", ANTHERCUP_PARAMETER_NAME_ABSENT, 4, 1);
    counted_is("800608014F070141D9", ANTHERCUP_PARAMETER_NAME, 0, 0);
    counted_is("820613010213010549", ANTHERCUP_PARAMETER_WAITING, 4, 1);
    counted_is("800305010077", 0x05, 0, 0); /* carried */
}

/* document 02, Q-4: each of the types counts, the first of two, and beside every other: no pair is new. In the old
 * edition none counts */
static void european_counts(void) {
    static const uint8_t starts[256] = {[0x0F] = 4, [0x10] = 16, [0x1A] = 19, [0x20] = 22, [0x21] = 38, [0x22] = 54,
                                        [0x23] = 70, [0x30] = 78, [0x31] = 82, [0x40] = 85, [0x50] = 89, [0x55] = 94,
                                        [0xE0] = 97};
    static const uint8_t lengths[256] = {[0x0F] = 10, [0x10] = 1, [0x1A] = 1, [0x20] = 14, [0x21] = 14, [0x22] = 14,
                                         [0x23] = 6, [0x30] = 2, [0x31] = 1, [0x40] = 2, [0x50] = 3, [0x55] = 1,
                                         [0xE0] = 10};
    for (unsigned type = 0; type < 256; type++) {
        counted_is(EUROPEAN, (uint8_t)type, starts[type], lengths[type]);
        counted_in(ANTHERCUP_OLD, EUROPEAN, (uint8_t)type, 0, 0);
    }
    counted_is("80090401501001370201389F", ANTHERCUP_PARAMETER_NETWORK_CALLER, 7, 1);
    counted_is("80090401501001370201389F", ANTHERCUP_PARAMETER_CALLER, 0, 0);
    counted_is("80091001370201380401509F", ANTHERCUP_PARAMETER_CALLER, 7, 1);
    counted_is("8006500100500104D4", ANTHERCUP_PARAMETER_DISPLAY, 4, 1);
}

/* every type of the old edition counts, of no other; 02H and 04H are its one pair, and 08H silences no name */
static void old_counts(void) {
    static const char all[] = "801C010830363135313433300201370701410B01FF12013915010616010AB0";
    static const char others[] = "801203013708014F0D01550E013911018113010287";
    static const unsigned starts[256] = {[0x01] = 4, [0x02] = 14, [0x07] = 17, [0x0B] = 20, [0x12] = 23, [0x15] = 26,
                                         [0x16] = 29};
    for (unsigned type = 0; type < 256; type++) {
        unsigned length = type == ANTHERCUP_PARAMETER_TIME ? 8 : 1;
        counted_in(ANTHERCUP_OLD, all, (uint8_t)type, starts[type], starts[type] ? length : 0);
        counted_in(ANTHERCUP_OLD, others, (uint8_t)type, 0, 0);
    }
    counted_in(ANTHERCUP_OLD, "8006040150020137EB", ANTHERCUP_PARAMETER_CALLER_ABSENT, 4, 1);
    counted_in(ANTHERCUP_OLD, "8006040150020137EB", ANTHERCUP_PARAMETER_CALLER, 0, 0);
    counted_in(ANTHERCUP_OLD, "8006020137040150EB", ANTHERCUP_PARAMETER_CALLER, 4, 1);
    counted_in(ANTHERCUP_OLD, "8006020137040150EB", ANTHERCUP_PARAMETER_CALLER_ABSENT, 0, 0);
    counted_in(ANTHERCUP_OLD, "800608014F070141D9", ANTHERCUP_PARAMETER_NAME_ABSENT, 0, 0);
    counted_in(ANTHERCUP_OLD, "800608014F070141D9", ANTHERCUP_PARAMETER_NAME, 7, 1);
    counted_in(ANTHERCUP_OLD, "800A0805000102030407014116", ANTHERCUP_PARAMETER_NAME, 11, 1);
    counted_in(ANTHERCUP_OLD, "820313010265", ANTHERCUP_PARAMETER_WAITING, 0, 0);
}

/* the caption of a message and a directory: side, start and length by hand; by the strict way the same, or 10 and the
 * record as it was */
static void caption_in(uint8_t edition, const char *octets, const char *directory, size_t size, int side, size_t start,
                       size_t length) {
    uint8_t o[300], part[ANTHERCUP_PART_OCTETS];
    size_t n = octets_of(octets, o);
    for (uint8_t way = 0; way <= ANTHERCUP_LENIENT; way++) {
        uint64_t wanted = word_by((struct book){edition, way}, o, n);
        memset(part, 0x5A, sizeof part);
        uint64_t answer = anthercup_caption(edition, way, o, n, (const uint8_t *)directory, size, part, sizeof part);
        same(directory, answer != wanted, 0);
        if (anthercup_number(wanted)) {
            for (size_t i = 0; i < sizeof part; i++) same("a part that stays", part[i], 0x5A);
            continue;
        }
        same(directory, (unsigned long)anthercup_part_in_directory(part), (unsigned long)side);
        same(directory, anthercup_part_start(part), start);
        same(directory, anthercup_part_length(part), length);
        for (size_t i = 1; i < 8; i++) same("a part's octets that are kept", part[i], 0);
    }
}

static void caption_is(const char *octets, const char *directory, size_t size, int side, size_t start, size_t length) {
    caption_in(ANTHERCUP_PRESENT, octets, directory, size, side, start, length);
}

static void captions(void) {
    static const struct {
        const char *octets, *directory;
        int side;
        size_t start, length;
    } cases[] = {
        {call, "", 0, 14, 5},
        {call, "409=A\n40912\n40912=B=C\n40912=D\n", 1, 18, 3},
        {call, "1=A\n40912=B", 1, 10, 1},
        {call, "40912=\n", 1, 6, 0},
        {call, "40912=B\r\n", 1, 6, 2},
        {call, "=40912\n409123=A\n0912=B\n\n", 0, 14, 5},
        {"80080703416E6E02013717", "7=A\n", 0, 4, 3},
        {"800608014F070141D9", "A=B\n", 0, 0, 0},
        {"8006040150020137EB", "7=A\n", 0, 0, 0},
    };
    static char wide[70000];
    for (size_t i = 0; i < sizeof cases / sizeof cases[0]; i++)
        caption_is(cases[i].octets, cases[i].directory, strlen(cases[i].directory), cases[i].side,
                   cases[i].start, cases[i].length);
    memset(wide, '\n', sizeof wide);
    memcpy(wide + sizeof wide - 9, "40912=Ann", 9);
    caption_is(call, wide, sizeof wide, 1, sizeof wide - 3, 3);
    caption_in(ANTHERCUP_OLD, call, "40912=B", 7, 1, 6, 1);
    caption_in(ANTHERCUP_OLD, "800608014F070141D9", "A=B\n", 4, 0, 7, 1);
    caption_in(ANTHERCUP_OLD, "8006040150020137EB", "7=A\n", 4, 0, 0, 0);
    caption_in(ANTHERCUP_OLD, "800303013742", "7=A\n", 4, 0, 0, 0);
}

/* ---- Entries, charges and extensions by the header's readers (document 02, Q-4) ---- */

static uint8_t draft[ANTHERCUP_DRAFT_OCTETS], area[ANTHERCUP_TEXTS_OCTETS];

/* reads a message of the present edition by both ways, with the texts that it needs and with one octet less: 9 */
static void read_into(const char *octets, unsigned entries, unsigned texts) {
    uint8_t o[300], none[ANTHERCUP_DRAFT_OCTETS], less[ANTHERCUP_TEXTS_OCTETS];
    size_t n = octets_of(octets, o);
    for (uint8_t way = 0; way <= ANTHERCUP_LENIENT; way++) {
        memset(none, 0x5A, sizeof none), memset(less, 0x5A, sizeof less), memset(area, 0x5A, sizeof area);
        if (texts) {
            uint64_t answer = anthercup_read_way(ANTHERCUP_PRESENT, way, o, n, none, sizeof none, less, texts - 1);
            same(octets, (unsigned long)answer, (unsigned long)refusal(ANTHERCUP_PRESENT, 9, texts, 0));
            for (size_t i = 0; i < sizeof none; i++) same("a draft that stays", none[i], 0x5A);
        }
        uint64_t answer = anthercup_read_way(ANTHERCUP_PRESENT, way, o, n, draft, sizeof draft, area, texts);
        same(octets, (unsigned long)answer, (unsigned long)((uint64_t)texts << 24));
        same(octets, anthercup_entries(draft), entries);
        for (size_t i = texts; i < sizeof area; i++) same("an area's rest", area[i], 0x5A);
        for (size_t i = 8 + 8 * (size_t)entries; i < sizeof draft; i++) same("an unused entry", draft[i], 0);
    }
}

/* the eight octets of an entry, in hex */
static void entry_is(unsigned i, const char *octets) {
    uint8_t cell[300];
    same("an entry's octets", octets_of(octets, cell), 8);
    same(octets, (unsigned long)memcmp(anthercup_entry(draft, i), cell, 8), 0);
}

/* the text of an entry: where it starts, and what it is */
static void text_is(unsigned i, unsigned start, const char *text) {
    same(text, anthercup_entry_start(draft, i), start);
    same(text, anthercup_entry_length(draft, i), strlen(text));
    same(text, (unsigned long)memcmp(anthercup_entry_text(draft, i, area), text, strlen(text)), 0);
}

static void moment_is(unsigned i, unsigned month, unsigned day, unsigned hour, unsigned minute, int second) {
    same("a moment", anthercup_entry_kind(draft, i), ANTHERCUP_VALUE_MOMENT);
    same("its month", anthercup_entry_month(draft, i), month);
    same("its day", anthercup_entry_day(draft, i), day);
    same("its hour", anthercup_entry_hour(draft, i), hour);
    same("its minute", anthercup_entry_minute(draft, i), minute);
    same("its second", (unsigned long)anthercup_entry_second(draft, i), (unsigned long)second);
}

static void marked_is(unsigned i, unsigned type, unsigned mark, unsigned start, const char *text) {
    same("a marked text's type", anthercup_entry_type(draft, i), type);
    same("a marked text", anthercup_entry_kind(draft, i), ANTHERCUP_VALUE_MARKED);
    same("its mark", (unsigned long)anthercup_entry_mark(draft, i), mark);
    text_is(i, start, text);
}

static void duration_is(unsigned i, unsigned hours, unsigned minutes, unsigned seconds) {
    same("a duration", anthercup_entry_kind(draft, i), ANTHERCUP_VALUE_DURATION);
    same("its hours", (unsigned long)anthercup_entry_duration_hours(draft, i), hours);
    same("its minutes", (unsigned long)anthercup_entry_duration_minutes(draft, i), minutes);
    same("its seconds", (unsigned long)anthercup_entry_duration_seconds(draft, i), seconds);
}

static void entries(void) {
    read_into(EUROPEAN, 13, 60);
    entry_is(0, "0F05060F0E1E3C00");
    moment_is(0, 6, 15, 14, 30, 59);
    entry_is(1, "1003000001000000");
    entry_is(3, "200302000E000000");
    text_is(2, 1, "8");
    text_is(4, 16, "---\x10" "00023-----");
    entry_is(6, "2306633B3A000000");
    duration_is(6, 99, 59, 58);
    text_is(7, 44, "AB");
    text_is(8, 46, "C");
    entry_is(9, "400701002F000100");
    marked_is(9, ANTHERCUP_PARAMETER_TERMINAL, ANTHERCUP_TERMINAL_CONNECTION, 47, "\x07");
    entry_is(10, "5007810030000200");
    marked_is(10, ANTHERCUP_PARAMETER_DISPLAY, ANTHERCUP_DISPLAY_STORED | ANTHERCUP_DISPLAY_POSITIVE, 48, "Hi");
    entry_is(11, "5500010000000000");
    entry_is(12, "E00332000A000000");
    text_is(12, 50, "33 FT  V01");
    /* a moment without a second, with 00 and with 59 */
    read_into("800A0F083036313531343330CB", 1, 0);
    entry_is(0, "0F05060F0E1E0000");
    moment_is(0, 6, 15, 14, 30, -1);
    read_into("800C0F0A3036313531343330303067", 1, 0);
    entry_is(0, "0F05060F0E1E0100");
    moment_is(0, 6, 15, 14, 30, 0);
    read_into("800C0F0A303232393233353935394D", 1, 0);
    moment_is(0, 2, 29, 23, 59, 59);
    /* a display with no text: alone, and between two texts */
    read_into("80035001002C", 1, 0);
    entry_is(0, "5007000000000000");
    marked_is(0, ANTHERCUP_PARAMETER_DISPLAY, ANTHERCUP_DISPLAY_UNKNOWN, 0, "");
    read_into("800A300241425001813101437A", 3, 3);
    entry_is(1, "5007810002000000");
    marked_is(1, ANTHERCUP_PARAMETER_DISPLAY, 0x81, 2, "");
    text_is(2, 2, "C");
    read_into("80054003022A23E9", 1, 2);
    marked_is(0, ANTHERCUP_PARAMETER_TERMINAL, ANTHERCUP_TERMINAL_NUMBER, 0, "*#");
    /* in the old edition all are carried, marks too */
    uint8_t o[300];
    size_t n = octets_of("80044002010732", o);
    uint64_t answer = anthercup_read_way(ANTHERCUP_OLD, ANTHERCUP_LENIENT, o, n, draft, sizeof draft, area, 2);
    same("old: read", (unsigned long)answer, (unsigned long)(naming(ANTHERCUP_OLD) | (uint64_t)2 << 24));
    entry_is(0, "4004000002000000");
    text_is(0, 0, "\x01\x07");
}

/* the longest display, alone in the longest message: 252 characters behind its mark */
static void longest_display(void) {
    uint8_t o[ANTHERCUP_MESSAGE_OCTETS] = {0x80, 255, 0x50, 253, 0x05}, sum = 0;
    char hex[2 * sizeof o + 1], text[253] = {0};
    const struct row r = {hex, 0, 0, 0, sizeof o};
    memset(text, '~', 252), memset(o + 5, '~', 252);
    for (size_t i = 0; i < 257; i++) sum = (uint8_t)(sum + o[i]);
    o[257] = (uint8_t)(0 - sum);
    for (size_t i = 0; i < sizeof o; i++) snprintf(hex + 2 * i, 3, "%02X", o[i]);
    all_cuttings(strict(ANTHERCUP_PRESENT), &r);
    all_cuttings(lenient(ANTHERCUP_PRESENT), &r);
    read_into(hex, 1, 252);
    entry_is(0, "500705000000FC00");
    marked_is(0, ANTHERCUP_PARAMETER_DISPLAY, ANTHERCUP_DISPLAY_PROVIDER, 0, text);
}

/* what the readers of one kind say of an entry with these octets behind its kind, of every kind and some types: of any
 * other kind -1, or no text */
static void other_kinds(void) {
    static const uint8_t types[] = {0x00, 0x01, 0x0F, 0x1F, 0x20, 0x22, 0x23, 0x40, 0x50, 0xDF, 0xE0, 0xE1};
    const unsigned i = ANTHERCUP_MOST_ENTRIES - 1;
    memset(draft, 0xFF, sizeof draft);
    for (unsigned kind = 0; kind < 256; kind++)
        for (size_t k = 0; k < sizeof types; k++) {
            const uint8_t cell[8] = {types[k], (uint8_t)kind, 1, 2, 3, 4, 5, 6};
            int text = kind == 3 || kind == 4, marked = kind == 7;
            memcpy(draft + sizeof draft - sizeof cell, cell, sizeof cell);
            same("a second", (unsigned long)anthercup_entry_second(draft, i), (unsigned long)(kind == 5 ? 4L : -1L));
            same("hours", (unsigned long)anthercup_entry_duration_hours(draft, i),
                 (unsigned long)(kind == 6 ? 1L : -1L));
            same("minutes", (unsigned long)anthercup_entry_duration_minutes(draft, i),
                 (unsigned long)(kind == 6 ? 2L : -1L));
            same("seconds", (unsigned long)anthercup_entry_duration_seconds(draft, i),
                 (unsigned long)(kind == 6 ? 3L : -1L));
            same("a mark", (unsigned long)anthercup_entry_mark(draft, i), (unsigned long)(marked ? 1L : -1L));
            same("a start", anthercup_entry_start(draft, i), text ? 0x0201 : marked ? 0x0403 : 0);
            same("a length", anthercup_entry_length(draft, i), text ? 0x0403 : marked ? 0x0605 : 0);
            same("no charge", anthercup_entry_charge(draft, i, area, SIZE_MAX) != NULL, 0);
            same("no extension", anthercup_entry_extension(draft, i, area, SIZE_MAX) != NULL, 0);
        }
}

/* of every type and kind, a text of each of these lengths that starts at 0, 3 or 65,535, and areas on both sides of its
 * end: a charge has 14 octets, an extension 10, both are texts and end within the area */
static void sized_texts(void) {
    static const unsigned starts[] = {0, 3, 65535};
    for (unsigned k = 0; k < 256 * 9 * 6 * 3; k++) {
        unsigned type = k % 256, kind = k / 256 % 9, length = 9 + k / 256 / 9 % 6, start = starts[k / 256 / 9 / 6];
        const uint8_t cell[8] = {(uint8_t)type, (uint8_t)kind, (uint8_t)start, (uint8_t)(start >> 8), (uint8_t)length};
        int charge = kind == 3 && type >= 0x20 && type <= 0x22 && length == 14;
        int extension = kind == 3 && type == 0xE0 && length == 10;
        memcpy(draft + 8, cell, sizeof cell);
        for (size_t octets = start + length - 1; octets <= start + length && start < 65535; octets++) {
            const uint8_t *found = anthercup_entry_charge(draft, 0, area, octets);
            same("a charge's place", found == (charge && octets == start + length ? area + start : NULL), 1);
            found = anthercup_entry_extension(draft, 0, area, octets);
            same("an extension's place", found == (extension && octets == start + length ? area + start : NULL), 1);
        }
        same("a text outside", anthercup_entry_charge(draft, 0, area, sizeof area) != NULL, start < 4 && charge);
        same("a text outside", anthercup_entry_extension(draft, 0, area, sizeof area) != NULL, start < 4 && extension);
    }
}

/* these octets stand there, or none where `text` is NULL */
static void part_is(const char *what, const uint8_t *found, const uint8_t *place, const char *text) {
    same(what, found == (text ? place : NULL), 1);
    if (text) same(what, (unsigned long)memcmp(found, text, strlen(text)), 0);
}

/* a charge, by its 14 octets: currency, flags, and cost, units and price, NULL and -1 where there is none */
static void charge_is(const char *octets, const char *currency, unsigned flags, unsigned charged, const char *cost,
                      long units, const char *price) {
    const uint8_t *c = (const uint8_t *)octets;
    part_is(octets, anthercup_charge_currency(c), c, currency);
    same(octets, anthercup_charge_flags(c), flags);
    same(octets, anthercup_charged(c), charged);
    part_is(octets, anthercup_charge_cost(c), c + 4, cost);
    same(octets, (unsigned long)anthercup_charge_units(c), (unsigned long)units);
    part_is(octets, anthercup_charge_price(c), c + 9, price);
}

/* annex D's three: 23,45 FRF; 23 units; 78 units of 0,12 DEM */
static void annex_d(const uint8_t *first, const uint8_t *second, const uint8_t *third) {
    charge_is((const char *)first, "FRF", 0x00, ANTHERCUP_CHARGED_COST, "0000023,45", -1, NULL);
    charge_is((const char *)second, NULL, 0x10, ANTHERCUP_CHARGED_UNITS, NULL, 23, NULL);
    charge_is((const char *)third, "DEM", 0x10, ANTHERCUP_CHARGED_UNITS, NULL, 78, "00,12");
}

/* annex D's, by their entries and where they count; commas at both ends, all flags, nothing; octets that are none */
static void charges(void) {
    uint8_t o[300];
    const uint8_t *in_area[3], *in_message[3];
    size_t n = octets_of(EUROPEAN, o);
    read_into(EUROPEAN, 13, 60);
    for (uint8_t way = 0; way <= ANTHERCUP_LENIENT; way++)
        for (uint8_t i = 0; i < 3; i++) {
            uint8_t type = (uint8_t)(ANTHERCUP_PARAMETER_CHARGE + i);
            uint64_t answer = anthercup_counted(ANTHERCUP_PRESENT, way, o, n, type);
            same("a charge's octets", anthercup_counted_length(answer), ANTHERCUP_CHARGE_OCTETS);
            in_message[i] = o + anthercup_counted_start(answer);
            in_area[i] = anthercup_entry_charge(draft, 3u + i, area, 60);
            same("a charge's text", in_area[i] == area + 2 + 14 * i, 1);
        }
    annex_d(in_area[0], in_area[1], in_area[2]);
    annex_d(in_message[0], in_message[1], in_message[2]);
    for (unsigned i = 0; i < 13; i++)
        if (i < 3 || i > 5) same("no charge", anthercup_entry_charge(draft, i, area, 60) != NULL, 0);
    charge_is("---\x08" "----------", NULL, 0x08, ANTHERCUP_CHARGED_NOTHING, NULL, -1, NULL);
    charge_is("---\xFF" "----------", NULL, 0xFF, ANTHERCUP_CHARGED_NOTHING, NULL, -1, NULL);
    charge_is("AZA\xE7" ",000000001", "AZA", 0xE7, ANTHERCUP_CHARGED_COST, ",000000001", -1, NULL);
    charge_is("ZAZ\x07" "999999999,", "ZAZ", 0x07, ANTHERCUP_CHARGED_COST, "999999999,", -1, NULL);
    charge_is("EUR\x14" "99999,9999", "EUR", 0x14, ANTHERCUP_CHARGED_UNITS, NULL, 99999, ",9999");
    charge_is("EUR\xF7" "000009999,", "EUR", 0xF7, ANTHERCUP_CHARGED_UNITS, NULL, 0, "9999,");
    charge_is("EUR\x11" "0000199999", "EUR", 0x11, ANTHERCUP_CHARGED_UNITS, NULL, 1, "99999");
    charge_is("EUR\x10" "0/00199999", "EUR", 0x10, ANTHERCUP_CHARGED_UNITS, NULL, -1, "99999");
    charge_is("EUR\x10" "0000:-9999", "EUR", 0x10, ANTHERCUP_CHARGED_UNITS, NULL, -1, NULL);
    charge_is("EUR\x18" "0000199999", "EUR", 0x18, ANTHERCUP_CHARGED_NOTHING, NULL, -1, NULL);
}

static void extension_is(const char *octets, const char *text, unsigned country) {
    read_into(octets, 1, ANTHERCUP_EXTENSION_OCTETS);
    text_is(0, 0, text);
    const uint8_t *e = anthercup_entry_extension(draft, 0, area, ANTHERCUP_EXTENSION_OCTETS);
    same(text, e == area, 1);
    same(text, (unsigned long)anthercup_extension_country(e), country);
    same(text, (unsigned long)memcmp(anthercup_extension_operator(e), "FT  ", ANTHERCUP_OPERATOR_OCTETS), 0);
    same(text, (unsigned long)memcmp(anthercup_extension_version(e), "V01", ANTHERCUP_VERSION_OCTETS), 0);
}

/* codes of one, two and three digits; and octets that are none */
static void extensions(void) {
    static const char *const none[] = {"   FT  V01", "3 3FT  V01", " 33FT  V01",
                                       "/  FT  V01", "3: FT  V01", "33-FT  V01"};
    extension_is("800CE00A3120204654202056303188", "1  FT  V01", 1);
    extension_is("800CE00A3333204654202056303173", "33 FT  V01", 33);
    extension_is("800CE00A3335314654202056303160", "351FT  V01", 351);
    extension_is("800CE00A3030374654202056303162", "007FT  V01", 7);
    for (size_t i = 0; i < sizeof none / sizeof none[0]; i++)
        same(none[i], (unsigned long)anthercup_extension_country((const uint8_t *)none[i]), (unsigned long)-1L);
}

/* refusals as the whole read's, ahead of them 17 by the size alone, and the part's record as it was */
static void no_caption(struct book b, const struct row *r) {
    uint8_t o[300], part[ANTHERCUP_PART_OCTETS + 16];
    size_t n = octets_of(r->octets, o);
    for (size_t size = 0; size <= sizeof part; size++) {
        uint64_t wanted = anthercup_counted(b.edition, b.way, o, n, ANTHERCUP_PARAMETER_CALLER), answer;
        if (anthercup_number(wanted) == 0 && size == ANTHERCUP_PART_OCTETS) continue;
        if (size != ANTHERCUP_PART_OCTETS) wanted = ANTHERCUP_REFUSED_RECORD;
        memset(part, 0x5A, sizeof part);
        answer = anthercup_caption(b.edition, b.way, o, n, o, 0, part, size);
        same(r->octets, (unsigned long)answer, (unsigned long)wanted);
        for (size_t k = 0; k < sizeof part; k++) same("a part that stays", part[k], 0x5A);
    }
}

/* document 01's notices on a desk; by the strict way the same, or 10 and the desk as it was */
static void notice_in(uint8_t edition, const char *octets, int waiting, unsigned lamp) {
    uint8_t o[300], desk[ANTHERCUP_DESK_OCTETS];
    size_t n = octets_of(octets, o);
    for (uint8_t way = 0; way <= ANTHERCUP_LENIENT; way++) {
        uint64_t wanted = word_by((struct book){edition, way}, o, n);
        int taken = anthercup_number(wanted) == 0;
        same("new desk", (unsigned long)anthercup_new_desk(desk, sizeof desk), 0);
        uint64_t answer = anthercup_settle(edition, way, desk, sizeof desk, o, n);
        same(octets, (unsigned long)answer, (unsigned long)wanted);
        same(octets, (unsigned long)anthercup_waiting(desk), (unsigned long)(taken ? waiting : -1));
        same(octets, anthercup_lamp(desk), taken ? lamp : ANTHERCUP_LAMP_UNKNOWN);
        for (size_t i = 3; i < sizeof desk; i++) same("places that stay", desk[i], 0);
    }
}

static void notice_is(const char *octets, int waiting, unsigned lamp) {
    notice_in(ANTHERCUP_PRESENT, octets, waiting, lamp);
}

/* every place in range, and no reference twice */
static int places_good(const uint8_t *desk) {
    for (unsigned i = 0; i < ANTHERCUP_MOST_PLACES; i++) {
        if (anthercup_open(desk, i) > 65535) return 0;
        for (unsigned j = 0; j < i; j++)
            if (anthercup_open(desk, i) >= 0 && anthercup_open(desk, i) == anthercup_open(desk, j)) return 0;
    }
    return 1;
}

/* records of every size around the right one */
static void other_sizes(void) {
    uint8_t o[] = {0x82, 3, 0x13, 1, 2, 0x65}, texts[ANTHERCUP_TEXTS_OCTETS], record[ANTHERCUP_DRAFT_OCTETS + 16];
    for (size_t k = 0; k < 3 * sizeof record; k++) {
        size_t size = k / 3;
        uint8_t way = k % 3 == 2 ? ANTHERCUP_LENIENT : ANTHERCUP_STRICT;
        memset(record, 0x5A, sizeof record);
        uint64_t answer = anthercup_read(ANTHERCUP_PRESENT, o, sizeof o, record, size, texts, sizeof texts);
        if (k % 3)
            answer = anthercup_read_way(ANTHERCUP_PRESENT, way, o, sizeof o, record, size, texts, sizeof texts);
        same("the size of a draft", (unsigned long)answer,
             size == ANTHERCUP_DRAFT_OCTETS ? 0 : ANTHERCUP_REFUSED_RECORD);
        for (size_t i = size == ANTHERCUP_DRAFT_OCTETS ? size : 0; i < sizeof record; i++)
            same("a draft that stays", record[i], 0x5A);
        memset(record, 0, sizeof record);
        if (size >= 64) continue;
        unsigned wanted = size == ANTHERCUP_DESK_OCTETS ? 0 : ANTHERCUP_REFUSED_RECORD;
        answer = anthercup_settle(ANTHERCUP_PRESENT, way, record, size, o, sizeof o);
        same("the size of a desk", anthercup_number(answer), wanted);
        same("the size of a new desk", anthercup_number(anthercup_new_desk(record, size)), wanted);
    }
}

/* a notice with 13H on a desk's record: 17, then 16, then 10 where it is not listed; carried, it changes nothing */
static void desk_by(struct book b, uint8_t *desk) {
    uint8_t o[] = {0x82, 3, 0x13, 1, 2, 0x65}, before[ANTHERCUP_DESK_OCTETS];
    int good = desk[0] <= 1 && (desk[0] == 1 || desk[1] == 0) && desk[2] <= 2 && desk[3] == 0 && places_good(desk);
    uint64_t wanted = is_known(b) ? word_by(b, o, sizeof o) : ANTHERCUP_REFUSED_UNKNOWN;
    if (!good) wanted = ANTHERCUP_REFUSED_RECORD;
    memcpy(before, desk, sizeof before);
    uint64_t answer = anthercup_settle(b.edition, b.way, desk, sizeof before, o, sizeof o);
    same("a desk's codes", (unsigned long)answer, (unsigned long)wanted);
    if (anthercup_number(wanted) == 0 && b.edition == ANTHERCUP_PRESENT)
        same("waiting", (unsigned long)anthercup_waiting(desk), 2);
    else
        same("a desk that stays", (unsigned long)memcmp(before, desk, sizeof before), 0);
}

/* every value of every octet beside a desk of which nothing is known, and beside one that is full */
static void other_desks(void) {
    for (unsigned full = 0; full < 2; full++)
        for (size_t at = 0; at < ANTHERCUP_DESK_OCTETS; at++)
            for (unsigned v = 0; v < 256; v++)
                for (size_t k = 0; k < sizeof some_numbers * sizeof some_ways; k++) {
                    uint8_t desk[ANTHERCUP_DESK_OCTETS] = {(uint8_t)full, full ? 255 : 0, full ? 2 : 0, 0};
                    for (unsigned i = 0; i < ANTHERCUP_MOST_PLACES; i++) desk[4 + 3 * i] = (uint8_t)(full ? i + 2 : 0);
                    desk[at] = (uint8_t)v;
                    desk_by((struct book){some_numbers[k / sizeof some_ways], some_ways[k % sizeof some_ways]}, desk);
                }
}

/* document 02, Q-6: a notice with a state and a reference, and the lamp on where it is asked for */
static uint64_t about_by(struct book b, uint8_t *desk, uint8_t state, unsigned reference, int lamp) {
    uint8_t o[] = {0x82, 5, 0x0D, 3, state, (uint8_t)(reference >> 8), (uint8_t)reference, 0x0B, 1, 0xFF, 0}, sum = 0;
    size_t n = lamp ? 10 : 7;
    o[1] = (uint8_t)(n - 2);
    for (size_t i = 0; i < n; i++) sum = (uint8_t)(sum + o[i]);
    o[n] = (uint8_t)(0 - sum);
    return anthercup_settle(b.edition, b.way, desk, ANTHERCUP_DESK_OCTETS, o, n + 1);
}

/* in the present edition both ways settle it alike */
static uint64_t about(uint8_t *desk, uint8_t state, unsigned reference, int lamp) {
    uint8_t other[ANTHERCUP_DESK_OCTETS];
    memcpy(other, desk, sizeof other);
    uint64_t answer = about_by(strict(ANTHERCUP_PRESENT), desk, state, reference, lamp);
    same("lenient too", about_by(lenient(ANTHERCUP_PRESENT), other, state, reference, lamp) != answer, 0);
    same("lenient too: desk", (unsigned long)memcmp(desk, other, sizeof other), 0);
    return answer;
}

static void holds(const uint8_t *desk, unsigned place, int32_t reference) {
    same("the reference in a place", (unsigned long)anthercup_open(desk, place), (unsigned long)reference);
}

/* added once, the lowest free place, the others stay, unset does nothing, a repeat after the removal adds again,
 * clearing */
static void references(void) {
    uint8_t desk[ANTHERCUP_DESK_OCTETS], once[ANTHERCUP_DESK_OCTETS];
    anthercup_new_desk(desk, sizeof desk);
    for (unsigned i = 0; i < ANTHERCUP_MOST_PLACES; i++) holds(desk, i, -1);
    same("added", (unsigned long)about(desk, 0xFF, 0x0102, 0), 0);
    holds(desk, 0, 0x0102);
    memcpy(once, desk, sizeof once);
    same("added again", (unsigned long)about(desk, 0xFF, 0x0102, 0), 0);
    same("once", (unsigned long)memcmp(once, desk, sizeof once), 0);
    about(desk, 0xFF, 0, 0);
    about(desk, 0xFF, 65535, 0);
    holds(desk, 1, 0), holds(desk, 2, 65535), holds(desk, 3, -1);
    about(desk, 0x55, 7, 0), about(desk, 0x00, 7, 0);
    holds(desk, 0, 0x0102), holds(desk, 1, 0), holds(desk, 2, 65535), holds(desk, 3, -1);
    about(desk, 0x00, 0, 0);
    holds(desk, 0, 0x0102), holds(desk, 1, -1), holds(desk, 2, 65535);
    for (size_t i = 7; i < 10; i++) same("a freed place is as new", desk[i], 0);
    about(desk, 0xFF, 9, 0);
    holds(desk, 0, 0x0102), holds(desk, 1, 9), holds(desk, 2, 65535), holds(desk, 3, -1);
    about(desk, 0xFF, 0, 0);
    holds(desk, 3, 0);
    same("cleared", (unsigned long)anthercup_new_desk(desk, sizeof desk), 0);
    for (size_t i = 0; i < sizeof desk; i++) same("as new", desk[i], 0);
}

/* sixteen places: all but one taken, all taken, by others or by the reference itself */
static void places(void) {
    uint8_t desk[ANTHERCUP_DESK_OCTETS], full[ANTHERCUP_DESK_OCTETS];
    anthercup_new_desk(desk, sizeof desk);
    for (unsigned i = 0; i < ANTHERCUP_MOST_PLACES; i++) {
        same("a place is free", (unsigned long)about(desk, 0xFF, 100 + i, 0), 0);
        holds(desk, i, (int32_t)(100 + i));
    }
    memcpy(full, desk, sizeof full);
    same("no place", (unsigned long)about(desk, 0xFF, 116, 1), ANTHERCUP_REFUSED_NO_PLACE);
    same("no place, and no lamp", (unsigned long)memcmp(full, desk, sizeof full), 0);
    same("unset", (unsigned long)about(desk, 0x55, 116, 0), 0);
    same("not there", (unsigned long)about(desk, 0x00, 116, 0), 0);
    same("all stay", (unsigned long)memcmp(full, desk, sizeof full), 0);
    same("it is there", (unsigned long)about(desk, 0xFF, 115, 1), 0);
    same("and the lamp", anthercup_lamp(desk), ANTHERCUP_LAMP_ON);
    same("taken out", (unsigned long)about(desk, 0x00, 107, 0), 0);
    same("a place again", (unsigned long)about(desk, 0xFF, 116, 0), 0);
    holds(desk, 6, 106), holds(desk, 7, 116), holds(desk, 8, 108);
    same("and none again", (unsigned long)about(desk, 0xFF, 107, 0), ANTHERCUP_REFUSED_NO_PLACE);
}

/* by the old edition a reference is carried: a full desk refuses none, its places stay, and the lamp is set; by the
 * strict way it is refused, and nothing is set */
static void no_references(void) {
    uint8_t desk[ANTHERCUP_DESK_OCTETS], full[ANTHERCUP_DESK_OCTETS];
    uint64_t unlisted = refusal(ANTHERCUP_OLD, 10, 2, 1);
    anthercup_new_desk(desk, sizeof desk);
    for (unsigned i = 0; i < ANTHERCUP_MOST_PLACES; i++) about(desk, 0xFF, 100 + i, 0);
    memcpy(full, desk, sizeof full);
    for (unsigned reference = 99; reference < 118; reference++)
        for (unsigned state = 0; state < 256; state++) {
            uint64_t answer = about_by(lenient(ANTHERCUP_OLD), desk, (uint8_t)state, reference, 0);
            same("old: no reference", (unsigned long)answer, (unsigned long)naming(ANTHERCUP_OLD));
            answer = about_by(strict(ANTHERCUP_OLD), desk, (uint8_t)state, reference, state % 2);
            same("old, strict: unlisted", (unsigned long)answer, (unsigned long)unlisted);
            same("old: all stay", (unsigned long)memcmp(full, desk, sizeof full), 0);
        }
    about_by(lenient(ANTHERCUP_OLD), desk, 0x00, 100, 1);
    same("old: the lamp", anthercup_lamp(desk), ANTHERCUP_LAMP_ON);
    full[2] = ANTHERCUP_LAMP_ON;
    same("old: nothing else", (unsigned long)memcmp(full, desk, sizeof full), 0);
}

/* a row through all exports by one edition and way */
static void one_row(struct book b, const struct row *r) {
    all_cuttings(b, r);
    read_whole(b, r);
    other_books(b, r);
    no_caption(b, r);
    lenient_too(b.edition, r);
}

static void all_rows(struct book b) {
    for (size_t i = 0; i < by_edition[b.edition].count; i++) {
        struct row r = row_by(b, &by_edition[b.edition].rows[i]);
        one_row(b, &r);
        if (b.way == ANTHERCUP_LENIENT) unknown_ones(&r);
    }
    for (size_t i = 0; i < by_edition[b.edition].strict_count && b.way == ANTHERCUP_STRICT; i++)
        one_row(b, &by_edition[b.edition].strict[i]);
    last_parameter(b);
    types_in_rooms(b);
    lengths_in_rooms(b);
    all_contents(b);
    if (b.edition == ANTHERCUP_PRESENT) charge_flags(b);
}

int main(void) {
    for (size_t i = 0; i < sizeof books / sizeof books[0]; i++) all_rows(books[i]);
    records_that_are_none();
    codes_in_range();
    old_contents(strict(ANTHERCUP_OLD));
    old_contents(lenient(ANTHERCUP_OLD));
    parameters_in_range();
    notice_is("82030B01FF70", -1, ANTHERCUP_LAMP_ON);
    notice_is("82030B01006F", -1, ANTHERCUP_LAMP_OFF);
    notice_is("820313010265", 2, ANTHERCUP_LAMP_UNKNOWN);
    notice_is("820613010213010549", 2, ANTHERCUP_LAMP_UNKNOWN);
    notice_is("8006040150020137EB", -1, ANTHERCUP_LAMP_UNKNOWN);
    notice_is(EUROPEAN, -1, ANTHERCUP_LAMP_UNKNOWN);
    notice_is("820E5001000B01FF2306303030303030CB", -1, ANTHERCUP_LAMP_ON);
    notice_in(ANTHERCUP_OLD, "82030B01FF70", -1, ANTHERCUP_LAMP_ON);
    notice_in(ANTHERCUP_OLD, "82030B01006F", -1, ANTHERCUP_LAMP_OFF);
    notice_in(ANTHERCUP_OLD, "820313010265", -1, ANTHERCUP_LAMP_UNKNOWN);
    notice_in(ANTHERCUP_OLD, "82060B01FF13010257", -1, ANTHERCUP_LAMP_ON);
    notice_in(ANTHERCUP_OLD, "82050D03FF010267", -1, ANTHERCUP_LAMP_UNKNOWN);
    counts();
    european_counts();
    old_counts();
    captions();
    entries();
    longest_display();
    other_kinds();
    sized_texts();
    charges();
    extensions();
    other_sizes();
    other_desks();
    references();
    places();
    no_references();
    printf("rows: %lu answers as documents 01 and 02 have them\n", compared);
    return 0;
}
