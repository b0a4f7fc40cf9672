//! Words and lines for the scripts. Where spaces part the words, no word has one.

/// Texts to stand after an apostrophe, parted by bars.
pub const TEXTS: &str = "\
    | |  |   |OK| OK|OK |  OK  |O K|O   K|'|''|' '|it's|-|--|4F4B|4F4B 104|4F4B 0|OK 5|0\
    |7|8|9| 7|7 |# no comment|alarm 17, gate B: open|packet read sum 024503C8|~|~~~~\
    |a\tb|OK\r|\t|\0|\u{7f}|\u{e9}|caf\u{e9}";

/// Words that are no first word of a command.
pub const FIRST: &str = "\
    x Packet PACKET packeT packe packets packet. packet, packetread packet-read acket \
    read write sum 024503C8 - ' 'packet \"packet\" packet' packet# // \\ \t \r \0 \
    \tpacket packet\t packet\r \rpacket packet\0 \0packet pac\0ket \u{feff}packet \
    p\u{e4}cket help exit media station lines refused error: packet\tread \
    packet\u{a0}read";

/// Words that are no second word of a command.
pub const SECOND: &str = "\
    x Read READ Write WRITE rea writ reads writes ead rite packet sum xor - ' 'read \
    read' read, read\t \twrite read\r write\r read\0 write\0 readsum read\tsum # #read \
    send check 02 \u{ff52}ead";

/// Words that are no KIND.
pub const KIND: &str = "\
    SUM Sum XOR Xor su xo sums xors um or summ sumxor sum,xor sum|xor crc parity none 0 \
    1 - -- ' 'sum 'xor sum' sum\t \tsum sum\r xor\r sum\0 \0xor s\0um \u{ff} \u{80} \
    024503C8 45 KIND";

/// Words that are no LETTER.
pub const LETTER: &str = "\
    4 E 0 045 0045 4545 454 4G G4 4g g4 0x45 x45 45h $45 - -- ' 'E '45 45' \"E\" +5 -5 \
    4- 4/ 4: 4@ 4` /4 :4 @4 `4 45\r 45\t \t45 \r5 4\0 \x004 \u{e9} \u{ff} LETTER ENQ \
    \u{ff14}\u{ff15}";

/// Words that are no BYTES.
pub const BYTES: &str = "\
    0 2 024 02450 024503C 024503C8F G0 0G 0g g0 024503CG 0x02 0x024503C8 02:45 02,45 \
    02-45 024503C8- -024503C8 -- --- -0 0- -' 02' 024503C8' \"OK\" \" OK +1 -1 \
    +024503C8 02\t45 \t 024503C8\t \t024503C8 024503C8\r 02\r -\r \r \0 02\0 0\x002 \
    \u{e9} \u{ff} 0\u{ff} 02\u{a0}45 BYTES empty 0/ 0: 0@ 0` /0 :0 @0 `0 \
    \u{ff10}\u{ff12} 0_2 # #02";

/// Words for SIZE, right and wrong.
pub const SIZE: &str = "\
    0 1 3 4 5 00 007 003 0004 0000 104 00104 256 260 1024 9999 65535 65536 065536 \
    000000000000000000000000065536 65537 65538 65540 065537 \
    000000000000000000000000065537 65546 66000 70000 99999 100000 100004 131072 131076 \
    655360 655364 2147483647 2147483648 4294967295 4294967296 4294967300 42949672960 \
    9223372036854775807 9223372036854775812 18446744073709551615 18446744073709551616 \
    18446744073709551620 99999999999999999999999 65537x x65537 4294967296- \
    1844674407370955161x 18446744073709551616\t 99999999999999999999999: \
    340282366920938463463374607431768211456 340282366920938463463374607431768211460 +1 \
    -1 +0 -0 +104 -104 - -- ' '104 104' 1.0 104. .5 1e2 1E2 0x68 68h 0b1 1_0 1,000 104, \
    I l04 1O4 104\r 104\t \t104 \r \0 104\0 \x00104 \u{ff} 104\u{a0} \u{664} \
    \u{ff11}\u{ff10}\u{ff14} \u{b2} SIZE [104] 104/ 104: / : # FF a 4a a4";

/// Words for SIZE of numbers that no memory has so many bytes for, or that no machine word holds.
pub const HUGE_SIZE: &str = "\
    65537 1000000 2147483648 4294967295 4294967296 4294967301 1099511627776 \
    9223372036854775807 18446744073709551615 18446744073709551616 18446744073709551621 \
    340282366920938463463374607431768211456 \
    1000000000000000000000000000000000000000000000000000000000000000000000000000000000000000000000000000 \
    9999999999999999999999999999999999999999999999999999999999999999999999999999999999999999999999999999 \
    0000000000000000000000000000000000000000999999999999999999999999999999999999999999999999999999999999";

/// Comments, blank lines and lines that look like them, parted by bars.
pub const LINES: &str = "\
    | |  |                    |#|##|# |#\t|#\r|#\0|#packet read sum 024503C8\
    |# packet read sum 024503C8|#'|#\u{e9}\u{ff}| #|  # packet read sum 024503C8|\t#|\r#\
    |\0#|\t| \t|\t |\r| \r|\r |\0| \0 |\u{a0}|\u{b}|\u{c}|\u{1a}|-| -|'| '|' |''|packet#\
    |packet #|packet read sum 024503C8 #|packet write sum 30 '# no comment\
    |packet read sum # 024503C8";

/// What stands after a whole command, parted by bars.
pub const LEFT_OVER: &str = "\
    x|-|'|'x|#|# a comment|0|104|00|\t|\r|\0|\u{ff}|sum|packet|-- --";

/// Words that commands are made of, and some others.
pub const LIKELY: &str = "\
    packet read write sum xor 45 30 41 - 37 4F4B 4f4b 024503C8 024503c6 104 5 65537 'OK \
    ' 0 \t \u{ff}";

/// Words that are no NAME of a medium.
pub const MEDIUM_NAME: &str = "\
    x M N a b mm nn mn m, m: m/ m' 'm \"m\" -m m- - -- ' 0 1 m0 make offer medium medium1 \
    m\t \tm m\r n\r m\0 \x00n \u{ff} \u{6d}\u{300} \u{ff4d} NAME queue:1 m,n m|n # #m";

/// Words that are no third word after `medium`.
pub const MEDIUM_THIRD: &str = "\
    x Make MAKE mak makes ake Offer OFFER offe offers Take TAKE tak takes taken Count \
    COUNT coun counts Holds HOLDS hold holdss 'make make' make: make, \tmake make\t make\r \
    offer\r take\r count\r holds\r take\0 \0count hol\0ds - -- ' # #take m n medium packet \
    queue:1 read write drop put get free list \u{ff} \u{ff54}ake";

/// Numbers for PLACES and for the BYTES of a medium, right and wrong.
pub const ROOM: &str = "\
    0 1 2 3 9 00 01 007 10 106 255 256 300 4095 4096 04096 00000000000000000000004096 \
    4097 04097 4106 4196 5000 8192 9999 32768 40960 65535 65536 065536 \
    000000000000000000000000065536 65537 065537 65546 66000 69632 99999 100000 131072 \
    655360 4294967295 4294967296 4294967297 4294971392 18446744073709551615 \
    18446744073709551616 18446744073709551617 18446744073709555712 \
    340282366920938463463374607431768211456 340282366920938463463374607431768211457 +1 \
    -1 +0 -0 - -- ' '1 1' 1.0 1. .1 1e1 0x1 1h 0b1 1_0 1,0 I l O 1\r \r1 1\t \t1 \t \0 1\0 \
    \x001 \u{ff} 1\u{a0} \u{661} \u{ff11} \u{b2} PLACES BYTES [1] 1/ /1 1: :1 : / # a A F f \
    1a a1 1;";

/// Words for PATTERN, right and wrong.
pub const PATTERN: &str = "\
    0 1 2 3 8 9 a f A F aF 00 01 10 0F f0 100 00000000 00000001 00000002 80000000 80000001 \
    7FFFFFFF FFFFFFFE FFFFFFFF ffffffff FfFfFfFf deadBEEF 55555555 aaaaaaaa AAAAAAAA \
    0000001 8000000 12345678 9abcdef0 000000000 000000001 080000000 100000000 FFFFFFFFF \
    0FFFFFFFF 123456789 0000000000000001 FFFFFFFFFFFFFFFF 10000000000000001 g G 1g g1 0x1 \
    0X1 x1 1h $1 #1 # +1 -1 +0 -0 - -- ' '1 1' 1.0 1. .1 1_0 1,0 1: :1 : 1/ / /1 1@ @ ` 1` \
    1\r \r1 1\t \t1 \t \r \0 1\0 \x001 1\u{a0} \u{ff} \u{661} \u{ff11} PATTERN [1] 1;";

/// Words that are no SPEC, whatever stands for its numbers.
pub const SPEC: &str = "\
    x - -- ' : :: / :/ queue packed noisy lossy SPEC queue: packed: noisy: noisy:: lossy: \
    lossy:/ lossy:1 lossy:1/ lossy:/queue:1 lossy/queue:1 lossy:1queue:1 lossy:1:queue:1 \
    lossy:1//queue:1 lossy:1/queue lossy:1/queue: lossy:1/packed: lossy:1/noisy:1 \
    lossy:1/noisy:1: lossy:1/noisy::1 lossy:1/noisy lossy:1/1 lossy:1/:1 lossy:1/x \
    lossy:1/lossy:1/queue:1 lossy:1/lossy:1 lossy:1/lossy:1/ lossy:1/lossy:1/noisy:1:1 \
    lossy:1:1/queue:1 lossy:1/1/queue:1 lossy:1/queue:1/ lossy:1/queue:1/queue:1 \
    lossy:1/queue:1: lossy:1/queue:1:1 lossy:1/packed:1:1 lossy:1/noisy:1:1:1 \
    lossy:1/noisy:1:1/ lossy:1/noisy:1:1/queue:1 /lossy:1/queue:1 :lossy:1/queue:1 \
    Lossy:1/queue:1 LOSSY:1/queue:1 loss:1/queue:1 lossy1/queue:1 lossy:1\\queue:1 \
    lossy:1/Queue:1 queue:1/ queue:1: queue:1:1 queue:1:1:1 queue::1 queue/1 queue1 \
    queue-1 queue=1 queue;1 :queue:1 Queue:1 QUEUE:1 queues:1 queu:1 ueue:1 'queue:1 \
    queue:1' \"queue:1\" queue:'1 queue:1, queue:1,noisy:1:1 queue:1/noisy:1:1 \
    queue:1/lossy:1 queue:1/lossy:1/ queue:- queue:x queue:F packed:1/ packed:1: packed:1:1 \
    packed:F packed::1 packed1 Packed:1 PACKED:1 pack:1 packet:1 packets:1 'packed:1 \
    noisy:1 noisy:1: noisy::1 noisy:1::1 noisy:1:1: noisy:1:1:1 noisy:1/1 noisy:1:1/ \
    noisy:1:1/queue:1 noisy:F:1 noisy:1:G noisy:1,1 noisy11 noisy1:1 Noisy:1:1 NOISY:1:1 \
    noise:1:1 'noisy:1:1 1 0 1:1 1:queue queue\t:1 queue:\t1 queue:1\t queue:1\r queue:1\0 \
    packed:1\r noisy:1:1\r noisy:1\r:1 noisy\0:1:1 lossy:1\r/queue:1 lossy:1/queue:1\r \
    lossy:1/\rqueue:1 lossy:1/\0queue:1 \u{ff}queue:1 queue\u{ff1a}1 queue:1\u{a0} \
    queue:1\u{2f}\u{2f} # #queue:1 queue:1#";

/// Words that medium commands are made of, and some others.
pub const MEDIUM_LIKELY: &str = "\
    medium m n make offer take count holds queue:1 queue:0 packed:9 noisy:2:5 \
    lossy:2/queue:2 lossy:80000000/packed:12 lossy:1 0245 024503c8 - 'OK ' 00 0 4096 \t \
    \u{ff}";

/// Words that are no NAME of an end.
pub const END_NAME: &str = "\
    x A B c m n aa bb ab a, a: a' 'a \"a\" -a a- - -- ' 0 1 a0 open state end a\t \ta a\r b\r \
    a\0 \x00b \u{ff} a\u{300} \u{ff41} NAME FROM a,b a|b # #a";

/// Words that are no third word after `end`.
pub const END_THIRD: &str = "\
    x Open OPEN ope opens pen opened Submit SUBMIT submi submits submission Timeout TIMEOUT \
    time timeouts time-out Arrive ARRIVE arriv arrives arrived Take TAKE tak takes taken Give \
    GIVE giv gives given given-back Collect COLLECT collec collects Settings SETTINGS setting \
    set settings: State STATE stat states status 'state state' state, \tstate state\t state\r \
    take\r give\r collect\r timeout\r open\r submit\r arrive\r settings\r take\0 \0give st\0ate \
    - -- ' # #state a b end packet medium read write make offer count holds 4F4B \u{ff} \
    \u{ff53}tate";

/// Words for LINE, right and wrong.
pub const LINE: &str = "\
    0 1 7 00 007 9 10 99 100 127 128 254 255 0255 000000000000000000000000255 256 0256 257 260 \
    300 511 512 999 1000 1279 2550 2560 65535 65536 65541 4294967295 4294967296 4294967301 \
    18446744073709551615 18446744073709551616 18446744073709551621 \
    340282366920938463463374607431768211461 +1 -1 +0 -0 - -- ' '1 1' 1.0 1. .1 1e1 0x1 1h FF ff \
    7F 1_0 1,0 I l O 1\r \r1 1\t \t1 \t \0 1\0 \x001 \u{ff} 1\u{a0} \u{661} \u{ff11} \u{b2} LINE [1] 1/ \
    /1 1: :1 # sum xor 01000600C8012C0308";

/// Words that end commands are made of, and some others.
pub const END_LIKELY: &str = "\
    end a b open submit timeout arrive take give collect settings state 5 255 256 sum xor \
    01000600C8012C0308 01000600C8012C0108 025203D5 024503C8 02304F4B03CD 02413703FB 4F4B - 'OK ' \
    96 95 65536 \t \u{ff}";

/// Words for SIDE, right and wrong.
pub const SIDE: &str = "\
    west east 0 1 00 001 2 02 255 0255 256 257 1000 65536 4294967296 18446744073709551616 \
    West WEST wes westt eas easts west,east w e a b +1 -1 - -- 'west west' west\r \twest 1\t 0x1 1. \
    \u{661} \u{ff} SIDE sum";

/// Words that line commands are made of, and some others.
pub const LINE_LIKELY: &str = "\
    open submit timeout arrive read collect settings state west east 0 1 2 256 sum xor \
    01000600C8012C0308 01000600C8012C0108 4F4B - 'OK 96 95 queue:2 packed:40 noisy:2:4 \
    lossy:5/queue:1 \t \u{ff}";
