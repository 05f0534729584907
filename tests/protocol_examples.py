"""Examples whose answers are worked out by hand: a call in each line, and after > what it answers, the lines parted by |."""

EXAMPLES = {
    "a party's name and a number": """
        name 0 > 0
        name 0 > 1
        name 1 > 2
        own 1 1 > ok
        build 0 0 2 > 3
        line 1 2 3 > 0
        list 0 > 0 0 FROM 0 | 0 1 TO 1 | 0 2 RECV 3 | 0 3 RIGHT 2 | bytes 43
        list 1 > 1 0 GIVEN 0 | 1 1 GIVEN 1 | 1 2 FRESH 2 | 1 3 JOIN 0 2 | 1 4 SEND 3 1 | bytes 62
        list 2 > 2 0 GIVEN 1 | 2 1 FROM 0 | 2 2 RECV 3 | 2 3 LEFT 2 | 2 4 SAME 3 1 | 2 5 RIGHT 2 | bytes 70
        provider symbolic > ok
        play > 1 1
        provider bytes > ok
        deal > 4
        seat 1 > 0
        seat 2 > 1
        send 0 > refused 11
        start 0 > 2
        start 1 > 1
        send 0 > 4 1
        take 1 1 4 > refused 13 4
        take 1 0 2 > refused 13 3
        take 1 0 4 > 1
        take 1 0 4 > refused 11
        """,
    "a shared key opens what it seals": """
        name 2 > 0
        name 1 > 1
        build 1 1 0 > 2
        own 0 2 > ok
        probe 0 1 > no
        own 0 0 > ok
        probe 0 1 > yes
        list 0 > 0 0 GIVEN 2 | 0 1 GIVEN 0 | 0 2 OPEN 0 1 | bytes 37
        """,
    "a public key does not open what it seals, but what its mate seals": """
        name 3 > 0
        name 1 > 2
        build 1 2 0 > 3
        build 1 2 1 > 4
        own 0 0 > ok
        own 0 3 > ok
        probe 0 2 > no
        own 0 4 > ok
        probe 0 2 > yes
        list 0 > 0 0 GIVEN 0 | 0 1 GIVEN 3 | 0 2 GIVEN 4 | 0 3 OPEN 2 0 | bytes 49
        """,
    "an opener that is composed": """
        name 4 > 0
        name 0 > 1
        name 1 > 2
        build 3 0 1 > 3
        build 4 3 0 > 4
        build 1 2 4 > 5
        build 4 4 0 > 3
        own 0 5 > ok
        own 0 0 > ok
        probe 0 2 > no
        own 0 1 > ok
        probe 0 2 > yes
        probe 1 2 > no
        list 0 > 0 0 GIVEN 5 | 0 1 GIVEN 0 | 0 2 GIVEN 1 | 0 3 ENTRY 1 2 | 0 4 OPEN 0 3 | bytes 63
        """,
    "a key that comes after what it opens": """
        name 0 > 0
        name 0 > 1
        name 2 > 2
        name 1 > 3
        build 1 3 2 > 4
        own 1 1 > ok
        line 1 2 4 > 0
        probe 0 3 > no
        probe 2 3 > no
        line 1 2 2 > 1
        probe 0 3 > yes
        probe 2 3 > yes
        list 0 > 0 0 FROM 0 | 0 1 TO 1 | 0 2 RECV 4 | 0 3 RECV 2 | 0 4 OPEN 2 3 | bytes 55
        list 1 > 1 0 GIVEN 0 | 1 1 GIVEN 1 | 1 2 FRESH 2 | 1 3 FRESH 3 | 1 4 SEAL 3 2 | 1 5 SEND 4 1 | 1 6 SEND 2 1 | bytes 87
        list 2 > 2 0 GIVEN 1 | 2 1 FROM 0 | 2 2 RECV 4 | 2 3 FROM 0 | 2 4 SAME 3 1 | 2 5 RECV 2 | 2 6 OPEN 2 5 | bytes 82
        """,
    "names of a refused step are still fresh": """
        name 0 > 0
        name 0 > 1
        name 3 > 2
        name 4 > 4
        build 0 3 4 > 5
        line 1 2 3 > refused 8
        own 1 1 > ok
        line 1 2 5 > refused 9 4
        probe 1 3 > no
        line 1 2 3 > 0
        own 1 4 > refused 5
        list 1 > 1 0 GIVEN 0 | 1 1 GIVEN 1 | 1 2 FRESH 2 | 1 3 MATE 2 | 1 4 SEND 3 1 | bytes 60
        """,
    "nothing to play": """
        provider bytes > ok
        memory 0 0 > ok
        play > 0 0
        provider symbolic > ok
        play > 0 0
        """,
    "bytes 250 255 sealed under 2 0 7": """
        provider bytes > ok
        atom 0 0 > 0
        atom 1 64254 > 1
        join 0 1 > 2
        atom 0 256 > 3
        entry 3 0 > 4
        seal 2 4 > 5
        show 5 > bytes 0 4 0 0 0 1 250 255
        right 5 > 6
        show 6 > bytes 250 255
        atom 2 7 > 7
        seal 6 7 > 8
        show 8 > bytes 250 6
        open 8 7 > 9
        same 6 9 > yes
        """,
}


def calls_of(text):
    """Each call with its answer lines."""
    for line in text.strip().splitlines():
        call, answer = line.split(" > ")
        yield call.strip(), "\n".join(part.strip() for part in answer.split("|"))
