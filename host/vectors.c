#include "vectors.h"

/* ---- records that many jobs share ---- */

#define FILL "01 "
#define CLASS "02 "
#define HEAD(question, d, v) "04 00 00 00 01 00 " question d " " v " "

#define NO_EDGES "00 00 00 00 02 00 "
#define NO_TRIANGLES "00 00 00 00 03 00 "
#define NO_TETRAHEDRA "00 00 00 00 04 00 "
#define EMPTY_CHAIN "00 00 00 00 05 00 "
#define EMPTY_WALK "00 00 00 00 06 00 "

/* Shell: edges 01 02 03 12 13 23 at byte 10, triangles 012 013 023 123 at 28, chain at 52. */
#define SHELL_EDGES "0c 00 00 00 02 00 00 01 00 02 00 03 01 02 01 03 02 03 "
#define SHELL_TRIANGLES "0c 00 00 00 03 00 00 01 02 00 01 03 00 02 03 01 02 03 "
#define SHELL_LISTS SHELL_EDGES SHELL_TRIANGLES NO_TETRAHEDRA
#define SHELL HEAD(FILL, "02", "04 00") SHELL_LISTS

/* Plate: edges 01 02 12 at byte 10, triangle 012 at 22, tetrahedra at 31, chain at 37. */
#define PLATE_EDGES "06 00 00 00 02 00 00 01 00 02 01 02 "
#define PLATE_TRIANGLE "03 00 00 00 03 00 00 01 02 "
#define PLATE_LISTS PLATE_EDGES PLATE_TRIANGLE NO_TETRAHEDRA
#define PLATE HEAD(FILL, "02", "03 00") PLATE_LISTS

/* Path: vertices 0 to 2, edges 01 12. */
#define PATH_LISTS "04 00 00 00 02 00 00 01 01 02 " NO_TRIANGLES NO_TETRAHEDRA

#define CHAIN1(a) "02 00 00 00 05 00 " a " 00 "
#define CHAIN2(a, b) "04 00 00 00 05 00 " a " 00 " b " 00 "
#define CHAIN3(a, b, c) "06 00 00 00 05 00 " a " 00 " b " 00 " c " 00 "

#define EDIT_EDGE(seen, new, edge) "08 00 00 00 07 00 02 00 " seen " 00 " new " 00 " edge " "
#define EDIT_TRIANGLE(seen, new, triangle) \
    "09 00 00 00 07 00 03 00 " seen " 00 " new " 00 " triangle " "
#define EDIT_TETRAHEDRON(seen, new, tetrahedron) \
    "0a 00 00 00 07 00 04 00 " seen " 00 " new " 00 " tetrahedron " "

#define REFUSED(number, place) "06 00 00 00 11 00 " number " 00 " place " 00 00 00"

/* P2's order, written down: 012 has moved to the end. */
#define SHELL_MOVED \
    HEAD(FILL, "02", "04 00") SHELL_EDGES \
    "0c 00 00 00 03 00 00 01 03 00 02 03 01 02 03 00 01 02 " NO_TETRAHEDRA

#define P1 SHELL CHAIN3("00", "01", "03")
#define P2 P1 EDIT_TRIANGLE("00", "03", "00 01 02")

const struct vector vectors[] = {
    {"one job whole", PLATE CHAIN3("00", "01", "02"), "04 00 00 00 10 00 02 00 01 02", NULL},
    {"empty input", "", REFUSED("03", "00"), NULL},

    /* ---- the bench jobs ---- */
    {"P1", P1, "04 00 00 00 10 00 02 00 01 02", NULL},
    {"P2", P2, "0a 00 00 00 10 00 02 00 01 03 00 02 03 01 02 03",
     SHELL_MOVED CHAIN3("00", "01", "03")},
    {"P3", SHELL EMPTY_CHAIN, "01 00 00 00 10 00 02", NULL},
    {"P4", SHELL CHAIN1("00"), REFUSED("0c", "00"), NULL},
    {"P5", HEAD(FILL, "02", "03 00") PLATE_EDGES NO_TRIANGLES NO_TETRAHEDRA CHAIN3("00", "01", "02"),
     REFUSED("0d", "00"), NULL},
    {"P6", HEAD(CLASS, "01", "03 00") PLATE_LISTS CHAIN1("02"),
     "05 00 00 00 10 00 01 00 01 00 02", NULL},
    {"P7", HEAD(FILL, "01", "03 00") PLATE_LISTS CHAIN2("00", "02"),
     "03 00 00 00 10 00 01 00 02", NULL},
    {"P8", HEAD(FILL, "01", "03 00") "06 00 00 00 02 00 00 01 01 02 00 02 " PLATE_TRIANGLE NO_TETRAHEDRA
           CHAIN2("00", "02"),
     "05 00 00 00 10 00 01 00 01 01 02", NULL},
    {"P9", HEAD(CLASS, "00", "03 00") PATH_LISTS CHAIN3("00", "01", "02"),
     "02 00 00 00 10 00 00 00", NULL},
    {"P10", HEAD(CLASS, "00", "03 00") PATH_LISTS CHAIN2("01", "02"),
     "01 00 00 00 10 00 00", NULL},
    {"P11", HEAD(FILL, "01", "02 00") NO_EDGES NO_TRIANGLES NO_TETRAHEDRA CHAIN1("00"),
     REFUSED("0d", "00"), NULL},
    {"P12", HEAD(FILL, "03", "04 00") SHELL_EDGES SHELL_TRIANGLES "04 00 00 00 04 00 00 01 02 03 "
            "08 00 00 00 05 00 00 00 01 00 02 00 03 00",
     "05 00 00 00 10 00 03 00 01 02 03", NULL},

    /* ---- jobs that are run ---- */
    {"five-vertex path",
     HEAD(FILL, "01", "05 00") "0a 00 00 00 02 00 00 01 01 02 02 03 03 04 00 04 "
     NO_TRIANGLES NO_TETRAHEDRA CHAIN2("00", "04"),
     "09 00 00 00 10 00 01 00 01 01 02 02 03 03 04", NULL},
    {"P2's edit twice", P2 EDIT_TRIANGLE("00", "03", "00 01 02"), REFUSED("0a", "4f"), NULL},

    /* ---- walks ---- */
    {"walk round a triangle", SHELL "03 00 00 00 06 00 00 01 02 ",
     "04 00 00 00 10 00 02 00 01 02", SHELL CHAIN3("00", "01", "03")},
    {"empty walk", SHELL EMPTY_WALK, "01 00 00 00 10 00 02", SHELL EMPTY_CHAIN},
    /* Out and back over one edge: some step uses it, so it is in the chain. */
    {"walk there and back", SHELL "02 00 00 00 06 00 00 01 ", REFUSED("0c", "00"),
     SHELL CHAIN1("00")},
    {"walk as a class", HEAD(CLASS, "01", "03 00") PLATE_LISTS "02 00 00 00 06 00 02 01 ",
     "05 00 00 00 10 00 01 00 01 00 02", HEAD(CLASS, "01", "03 00") PLATE_LISTS CHAIN1("02")},
    {"walk with a spur", SHELL "05 00 00 00 06 00 00 01 02 03 02 ", REFUSED("0c", "00"),
     SHELL "08 00 00 00 05 00 00 00 01 00 03 00 05 00 "},

    /* ---- edits ---- */
    {"edit that stays", P1 EDIT_TRIANGLE("00", "00", "00 01 02"), "04 00 00 00 10 00 02 00 01 02", P1},
    {"edit down", P1 EDIT_TRIANGLE("03", "01", "01 02 03"), "04 00 00 00 10 00 02 00 01 02",
     HEAD(FILL, "02", "04 00") SHELL_EDGES "0c 00 00 00 03 00 00 01 02 01 02 03 00 01 03 00 02 03 "
     NO_TETRAHEDRA CHAIN3("00", "01", "03")},
    /* A names 01 02 12; with 01 moved to the end their ranks are 0, 2 and 5. */
    {"edit under the chain", P1 EDIT_EDGE("00", "05", "00 01"), "04 00 00 00 10 00 02 00 01 02",
     HEAD(FILL, "02", "04 00") "0c 00 00 00 02 00 00 02 00 03 01 02 01 03 02 03 00 01 "
     SHELL_TRIANGLES NO_TETRAHEDRA CHAIN3("00", "02", "05")},
    /* P6 with 12 moved to the front: the chain 12 is then the smallest of its class. */
    {"edit changes a class",
     HEAD(CLASS, "01", "03 00") PLATE_LISTS CHAIN1("02") EDIT_EDGE("02", "00", "01 02"),
     "03 00 00 00 10 00 01 01 02",
     HEAD(CLASS, "01", "03 00") "06 00 00 00 02 00 01 02 00 01 00 02 " PLATE_TRIANGLE NO_TETRAHEDRA
     CHAIN1("00")},
    /* The second edit sees the order that the first one leaves. */
    {"edits see earlier edits", P2 EDIT_TRIANGLE("00", "03", "00 01 03"),
     "04 00 00 00 10 00 02 00 01 02",
     HEAD(FILL, "02", "04 00") SHELL_EDGES "0c 00 00 00 03 00 00 02 03 01 02 03 00 01 02 00 01 03 "
     NO_TETRAHEDRA CHAIN3("00", "01", "03")},
    {"edit of the one tetrahedron",
     HEAD(CLASS, "02", "04 00") SHELL_EDGES SHELL_TRIANGLES "04 00 00 00 04 00 00 01 02 03 "
     CHAIN1("03") EDIT_TETRAHEDRON("00", "00", "00 01 02 03"),
     "0a 00 00 00 10 00 02 00 01 02 00 01 03 00 02 03",
     HEAD(CLASS, "02", "04 00") SHELL_EDGES SHELL_TRIANGLES "04 00 00 00 04 00 00 01 02 03 "
     CHAIN1("03")},

    /* ---- 2, cut ---- */
    {"one byte", "04", REFUSED("02", "00"), NULL},
    {"header without its last byte", "04 00 00 00 01", REFUSED("02", "00"), NULL},
    {"header without payload", "04 00 00 00 01 00", REFUSED("02", "00"), NULL},
    {"payload without its last byte", "04 00 00 00 01 00 01 02 03", REFUSED("02", "00"), NULL},
    {"length of all ones", "ff ff ff ff 01 00 01 02 03 00", REFUSED("02", "00"), NULL},
    {"second header cut", HEAD(FILL, "02", "03 00") "06 00 00 00 02", REFUSED("02", "0a"), NULL},
    {"chain cut", PLATE "06 00 00 00 05 00 00 00 01 00 02", REFUSED("02", "25"), NULL},
    {"a stray byte after the chain", PLATE EMPTY_CHAIN "00", REFUSED("02", "2b"), NULL},
    {"edit cut", P1 "09 00 00 00 07 00 03 00 00 00 03 00 00 01", REFUSED("02", "40"), NULL},

    /* ---- 3, kind ---- */
    {"first kind 2", PLATE_EDGES, REFUSED("03", "00"), NULL},
    {"first kind 0", "00 00 00 00 00 00", REFUSED("03", "00"), NULL},
    {"high byte of the kind", "04 00 00 00 01 01 01 02 03 00", REFUSED("03", "00"), NULL},
    {"head twice", HEAD(FILL, "02", "03 00") HEAD(FILL, "02", "03 00"), REFUSED("03", "0a"), NULL},
    {"edges left out", HEAD(FILL, "02", "03 00") NO_TRIANGLES, REFUSED("03", "0a"), NULL},
    {"chain before tetrahedra", HEAD(FILL, "02", "03 00") NO_EDGES NO_TRIANGLES EMPTY_CHAIN,
     REFUSED("03", "16"), NULL},
    {"edit before the chain", SHELL EDIT_TRIANGLE("00", "03", "00 01 02") EMPTY_CHAIN,
     REFUSED("03", "34"), NULL},
    {"two chains", SHELL EMPTY_CHAIN EMPTY_CHAIN, REFUSED("03", "3a"), NULL},
    {"chain and walk", SHELL EMPTY_CHAIN EMPTY_WALK, REFUSED("03", "3a"), NULL},
    {"walk and chain", SHELL EMPTY_WALK EMPTY_CHAIN, REFUSED("03", "3a"), NULL},
    {"an answer in a job", SHELL "01 00 00 00 10 00 02", REFUSED("03", "34"), NULL},
    {"walk where A has dimension 0", HEAD(FILL, "01", "03 00") PLATE_LISTS EMPTY_WALK,
     REFUSED("03", "25"), NULL},
    {"walk where A has dimension 2", HEAD(FILL, "03", "03 00") PLATE_LISTS EMPTY_WALK,
     REFUSED("03", "25"), NULL},
    {"walk in class 0", HEAD(CLASS, "00", "03 00") PLATE_LISTS EMPTY_WALK, REFUSED("03", "25"), NULL},
    {"walk in class 2", HEAD(CLASS, "02", "03 00") PLATE_LISTS EMPTY_WALK, REFUSED("03", "25"), NULL},
    {"ends after the head", HEAD(FILL, "02", "03 00"), REFUSED("03", "0a"), NULL},
    {"ends before the chain", SHELL, REFUSED("03", "34"), NULL},

    /* ---- 4, shape ---- */
    {"empty head", "00 00 00 00 01 00", REFUSED("04", "00"), NULL},
    {"head of 3", "03 00 00 00 01 00 01 02 03", REFUSED("04", "00"), NULL},
    {"head of 5", "05 00 00 00 01 00 01 02 03 00 00", REFUSED("04", "00"), NULL},
    {"edges of 3", HEAD(FILL, "02", "03 00") "03 00 00 00 02 00 00 01 00 ", REFUSED("04", "0a"), NULL},
    {"triangles of 4", HEAD(FILL, "02", "03 00") PLATE_EDGES "04 00 00 00 03 00 00 01 02 00 ",
     REFUSED("04", "16"), NULL},
    {"tetrahedra of 2", HEAD(FILL, "02", "03 00") PLATE_EDGES PLATE_TRIANGLE "02 00 00 00 04 00 00 01 ",
     REFUSED("04", "1f"), NULL},
    {"chain of 3", PLATE "03 00 00 00 05 00 00 00 01", REFUSED("04", "25"), NULL},
    {"edit of 0", P1 "00 00 00 00 07 00", REFUSED("04", "40"), NULL},
    {"edit of 1", P1 "01 00 00 00 07 00 03", REFUSED("04", "40"), NULL},
    {"edit of a triangle, one short", P1 "08 00 00 00 07 00 03 00 00 00 03 00 00 01",
     REFUSED("04", "40"), NULL},
    {"edit of an edge, one long", P1 "09 00 00 00 07 00 02 00 00 00 03 00 00 01 02",
     REFUSED("04", "40"), NULL},
    {"edit in list kind 1", P1 "07 00 00 00 07 00 01 00 00 00 00 00 00", REFUSED("04", "40"), NULL},
    {"edit in list kind 5", P1 "0b 00 00 00 07 00 05 00 00 00 03 00 00 01 02 03 04",
     REFUSED("04", "40"), NULL},
    {"high byte of the list kind", P1 "09 00 00 00 07 00 03 01 00 00 03 00 00 01 02",
     REFUSED("04", "40"), NULL},

    /* ---- 5, head ---- */
    {"question 0", HEAD("00 ", "02", "03 00") PLATE_LISTS EMPTY_CHAIN, REFUSED("05", "00"), NULL},
    {"question 3", HEAD("03 ", "01", "03 00") PLATE_LISTS EMPTY_CHAIN, REFUSED("05", "00"), NULL},
    {"fill 0", HEAD(FILL, "00", "03 00") PLATE_LISTS EMPTY_CHAIN, REFUSED("05", "00"), NULL},
    {"fill 4", HEAD(FILL, "04", "03 00") PLATE_LISTS EMPTY_CHAIN, REFUSED("05", "00"), NULL},
    {"class 3", HEAD(CLASS, "03", "03 00") PLATE_LISTS EMPTY_CHAIN, REFUSED("05", "00"), NULL},
    {"class 255", HEAD(CLASS, "ff", "03 00") PLATE_LISTS EMPTY_CHAIN, REFUSED("05", "00"), NULL},
    {"v 257", HEAD(FILL, "02", "01 01") PLATE_LISTS EMPTY_CHAIN, REFUSED("05", "00"), NULL},
    {"v 65535", HEAD(FILL, "02", "ff ff") PLATE_LISTS EMPTY_CHAIN, REFUSED("05", "00"), NULL},

    /* ---- 6, vertex ---- */
    {"edge 00", HEAD(FILL, "01", "03 00") "02 00 00 00 02 00 00 00 ", REFUSED("06", "10"), NULL},
    {"edge 10", HEAD(FILL, "01", "03 00") "02 00 00 00 02 00 01 00 ", REFUSED("06", "10"), NULL},
    {"vertex 3 of 3", HEAD(FILL, "01", "03 00") "04 00 00 00 02 00 00 02 01 03 ",
     REFUSED("06", "12"), NULL},
    {"a vertex where there are none", HEAD(FILL, "01", "00 00") "02 00 00 00 02 00 00 01 ",
     REFUSED("06", "10"), NULL},
    {"triangle 021", HEAD(FILL, "02", "03 00") PLATE_EDGES "03 00 00 00 03 00 00 02 01 ",
     REFUSED("06", "1c"), NULL},
    {"tetrahedron 0122",
     HEAD(FILL, "03", "04 00") SHELL_EDGES SHELL_TRIANGLES "04 00 00 00 04 00 00 01 02 02 ",
     REFUSED("06", "34"), NULL},

    /* ---- 7, twice ---- */
    {"edge twice", HEAD(FILL, "01", "03 00") "06 00 00 00 02 00 00 01 00 02 00 01 ",
     REFUSED("07", "14"), NULL},
    {"triangle twice", HEAD(FILL, "02", "03 00") PLATE_EDGES "06 00 00 00 03 00 00 01 02 00 01 02 ",
     REFUSED("07", "1f"), NULL},
    {"tetrahedron twice",
     HEAD(FILL, "03", "04 00") SHELL_EDGES SHELL_TRIANGLES
     "08 00 00 00 04 00 00 01 02 03 00 01 02 03 ", REFUSED("07", "38"), NULL},

    /* ---- 8, face ---- */
    {"triangle without 01", HEAD(FILL, "02", "03 00") "04 00 00 00 02 00 00 02 01 02 " PLATE_TRIANGLE,
     REFUSED("08", "1a"), NULL},
    {"triangle without 02", HEAD(FILL, "02", "03 00") "04 00 00 00 02 00 00 01 01 02 " PLATE_TRIANGLE,
     REFUSED("08", "1a"), NULL},
    {"triangle without 12", HEAD(FILL, "02", "03 00") "04 00 00 00 02 00 00 01 00 02 " PLATE_TRIANGLE,
     REFUSED("08", "1a"), NULL},
    {"tetrahedron without 123",
     HEAD(FILL, "03", "04 00") SHELL_EDGES "09 00 00 00 03 00 00 01 02 00 01 03 00 02 03 "
     "04 00 00 00 04 00 00 01 02 03 ", REFUSED("08", "31"), NULL},

    /* ---- 9, chain item ---- */
    {"position 3 of 3", PLATE CHAIN2("00", "03"), REFUSED("09", "2d"), NULL},
    {"position with a high byte", PLATE "02 00 00 00 05 00 00 01", REFUSED("09", "2b"), NULL},
    {"position twice", PLATE CHAIN2("01", "01"), REFUSED("09", "2d"), NULL},
    {"positions that fall", PLATE CHAIN3("00", "02", "01"), REFUSED("09", "2f"), NULL},
    {"vertex position 3 of 3", HEAD(FILL, "01", "03 00") PLATE_LISTS CHAIN1("03"),
     REFUSED("09", "2b"), NULL},
    {"triangle position 1 of 1", HEAD(CLASS, "02", "03 00") PLATE_LISTS CHAIN1("01"),
     REFUSED("09", "2b"), NULL},
    {"walk of one vertex", SHELL "01 00 00 00 06 00 00 ", REFUSED("09", "3a"), NULL},
    {"walk that stands still", SHELL "04 00 00 00 06 00 00 01 01 02 ", REFUSED("09", "3b"), NULL},
    {"walk over no edge",
     HEAD(CLASS, "01", "03 00") PATH_LISTS "03 00 00 00 06 00 00 01 02 ", REFUSED("09", "28"), NULL},
    {"walk to an unknown vertex", SHELL "03 00 00 00 06 00 00 01 09 ", REFUSED("09", "3b"), NULL},

    /* ---- 10, stale ---- */
    {"edit of another triangle", P1 EDIT_TRIANGLE("00", "03", "00 01 03"), REFUSED("0a", "40"), NULL},
    {"seen position 4 of 4", P1 EDIT_TRIANGLE("04", "03", "00 01 02"), REFUSED("0a", "40"), NULL},
    {"seen position with a high byte", P1 "09 00 00 00 07 00 03 00 00 01 03 00 00 01 02 ",
     REFUSED("0a", "40"), NULL},
    {"edit in an empty list", P1 EDIT_TETRAHEDRON("00", "00", "00 01 02 03"),
     REFUSED("0a", "40"), NULL},
    {"edit by the order in the file", P2 EDIT_TRIANGLE("03", "00", "01 02 03"),
     REFUSED("0a", "4f"), NULL},

    /* ---- 11, target ---- */
    {"new position 4 of 4", P1 EDIT_TRIANGLE("00", "04", "00 01 02"), REFUSED("0b", "40"), NULL},
    {"new position with a high byte", P1 "09 00 00 00 07 00 03 00 00 00 00 01 00 01 02 ",
     REFUSED("0b", "40"), NULL},
    {"new position 6 of 6 edges", P1 EDIT_EDGE("05", "06", "02 03"), REFUSED("0b", "40"), NULL},

    /* ---- 12 and 13 beyond P4, P5, P11 ---- */
    {"open triangles", HEAD(FILL, "03", "04 00") SHELL_LISTS CHAIN1("02"), REFUSED("0c", "00"), NULL},
    {"closed shell, no tetrahedron",
     HEAD(FILL, "03", "04 00") SHELL_LISTS "08 00 00 00 05 00 00 00 01 00 02 00 03 00 ",
     REFUSED("0d", "00"), NULL},
    {"an odd vertex", HEAD(FILL, "01", "03 00") PATH_LISTS CHAIN1("01"), REFUSED("0d", "00"), NULL},

    /* ---- the order of the checks, two broken at once ---- */
    {"2 before 3", "ff 00 00 00 09 00", REFUSED("02", "00"), NULL},
    {"2 before 4", "05 00 00 00 01 00 01 02 03 00", REFUSED("02", "00"), NULL},
    {"3 before 4", "03 00 00 00 05 00 00 00 00", REFUSED("03", "00"), NULL},
    {"4 before 5", "05 00 00 00 01 00 09 09 ff ff 00", REFUSED("04", "00"), NULL},
    {"5 before a later 2", "04 00 00 00 01 00 09 02 03 00 ff", REFUSED("05", "00"), NULL},
    {"6 before 8", HEAD(FILL, "02", "03 00") NO_EDGES "03 00 00 00 03 00 00 02 01 ",
     REFUSED("06", "16"), NULL},
    {"an earlier 8 before a later 6",
     HEAD(FILL, "02", "03 00") NO_EDGES "06 00 00 00 03 00 00 01 02 00 00 00 ",
     REFUSED("08", "16"), NULL},
    {"an earlier 7 before a later 6", HEAD(FILL, "01", "03 00") "06 00 00 00 02 00 00 01 00 01 00 00 ",
     REFUSED("07", "12"), NULL},
    {"4 before 6", HEAD(FILL, "01", "03 00") "03 00 00 00 02 00 00 00 00 ", REFUSED("04", "0a"), NULL},
    {"6 before a later 3", HEAD(FILL, "01", "03 00") "02 00 00 00 02 00 00 00 " EMPTY_CHAIN,
     REFUSED("06", "10"), NULL},
    {"9 before a later 10", PLATE CHAIN1("07") EDIT_TRIANGLE("00", "00", "00 01 03"),
     REFUSED("09", "2b"), NULL},
    {"10 before 11", P1 EDIT_TRIANGLE("01", "09", "00 01 02"), REFUSED("0a", "40"), NULL},
    {"an earlier 11 before a later 10",
     P1 EDIT_TRIANGLE("00", "04", "00 01 02") EDIT_TRIANGLE("01", "00", "00 01 02"),
     REFUSED("0b", "40"), NULL},
    {"10 before 12", SHELL CHAIN1("00") EDIT_TRIANGLE("01", "00", "00 01 02"),
     REFUSED("0a", "3c"), NULL},
    {"2 before 12", SHELL CHAIN1("00") "00", REFUSED("02", "3c"), NULL},
    {"12 before 13", HEAD(FILL, "02", "03 00") PLATE_EDGES NO_TRIANGLES NO_TETRAHEDRA CHAIN1("00"),
     REFUSED("0c", "00"), NULL},
};

const size_t vector_count = sizeof vectors / sizeof vectors[0];
