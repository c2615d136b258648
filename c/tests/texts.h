/* Worked texts with their outcomes: rows of a table, for tests to include. The expected values are
 * the RFCs', or follow from them by hand. */

/* A kind, a text that spells a value of it, and the canonical text of that value. */
#define ACCEPTED(ROW) \
  ROW(SF_ITEM, " -0 ", "0") \
  ROW(SF_ITEM, "@-0", "@0") \
  ROW(SF_ITEM, "-0.0", "0.0") \
  ROW(SF_ITEM, "-0.5", "-0.5") \
  ROW(SF_ITEM, "007", "7") \
  ROW(SF_ITEM, "a/b:c", "a/b:c") \
  ROW(SF_ITEM, "01.500;q;q=?0;r=1", "1.5;q=?0;r=1") \
  ROW(SF_ITEM, "999999999999999", "999999999999999") \
  ROW(SF_ITEM, "-999999999999.999", "-999999999999.999") \
  ROW(SF_ITEM, ":YQ:", ":YQ==:") \
  ROW(SF_ITEM, ":YQ=:", ":YQ==:") \
  ROW(SF_ITEM, ":YQ==:", ":YQ==:") \
  ROW(SF_ITEM, "::", "::") \
  ROW(SF_ITEM, ":iZ:", ":iQ==:") \
  ROW(SF_ITEM, ":iZ=:", ":iQ==:") \
  ROW(SF_ITEM, ":iZ==:", ":iQ==:") \
  ROW(SF_ITEM, ":iQ:", ":iQ==:") \
  ROW(SF_ITEM, ":YWE:", ":YWE=:") \
  ROW(SF_ITEM, ":YWF=:", ":YWE=:") \
  ROW(SF_ITEM, "%\"%41\\\"", "%\"A\\\"") \
  ROW(SF_ITEM, "%\"f%c3%bc\"", "%\"f%c3%bc\"") \
  ROW(SF_ITEM, "%\"%25%22%0a\"", "%\"%25%22%0a\"") \
  ROW(SF_ITEM, "%\"%7f%00\"", "%\"%7f%00\"") \
  ROW(SF_ITEM, "%\"%ef%bb%bfa\"", "%\"%ef%bb%bfa\"") \
  ROW(SF_ITEM, "%\"for %c3%bc users.\"", "%\"for %c3%bc users.\"") \
  ROW(SF_ITEM, "\"a\\\"b\\\\\"", "\"a\\\"b\\\\\"") \
  ROW(SF_ITEM, "a;  b;c=2;b=-01", "a;b=-1;c=2") \
  ROW(SF_ITEM, "a;b=@1;b=1", "a;b=1") \
  ROW(SF_ITEM, "@1659578233", "@1659578233") \
  ROW(SF_ITEM, "?1", "?1") \
  ROW(SF_ITEM, "?0;a", "?0;a") \
  ROW(SF_ITEM, "*a", "*a") \
  ROW(SF_ITEM, "a;*k=?1", "a;*k") \
  ROW(SF_ITEM, "1.10", "1.1") \
  ROW(SF_ITEM, "0.100", "0.1") \
  ROW(SF_ITEM, "1.0;a=1.000", "1.0;a=1.0") \
  ROW(SF_ITEM, "\"\"", "\"\"") \
  ROW(SF_ITEM, "%\"\"", "%\"\"") \
  ROW(SF_ITEM, "-0", "0") \
  ROW(SF_ITEM, "a;a;a=?0;a", "a;a") \
  ROW(SF_ITEM, "a;x=1;y=2;x=3", "a;x=3;y=2") \
  ROW(SF_ITEM, "abc", "abc") \
  ROW(SF_LIST, "a \t", "a") \
  ROW(SF_LIST, "", "") \
  ROW(SF_LIST, "   ", "") \
  ROW(SF_LIST, "1,2", "1, 2") \
  ROW(SF_LIST, "\"a, b\"", "\"a, b\"") \
  ROW(SF_LIST, "()", "()") \
  ROW(SF_LIST, "( )", "()") \
  ROW(SF_LIST, "(a;b c)", "(a;b c)") \
  ROW(SF_LIST, "(a; b)", "(a;b)") \
  ROW(SF_LIST, ":YQ:,:YQ:", ":YQ==:, :YQ==:") \
  ROW(SF_LIST, "sugar, tea, rum", "sugar, tea, rum") \
  ROW(SF_LIST, "(\"foo\" \"bar\"), (\"baz\"), (\"bat\" \"one\"), ()", \
      "(\"foo\" \"bar\"), (\"baz\"), (\"bat\" \"one\"), ()") \
  ROW(SF_LIST, "abc;a=1;b=2; cde_456, (ghi;jk=4 l);q=\"9\";r=w", \
      "abc;a=1;b=2;cde_456, (ghi;jk=4 l);q=\"9\";r=w") \
  ROW(SF_LIST, "a\t ,\t b", "a, b") \
  ROW(SF_LIST, "( 1  2 );a, 3", "(1 2);a, 3") \
  ROW(SF_LIST, "OriginCache; hit; ttl=1100, \"CDN Company Here\"; hit; ttl=545", \
      "OriginCache;hit;ttl=1100, \"CDN Company Here\";hit;ttl=545") \
  ROW(SF_LIST, "c;hit;fwd=miss", "c;hit;fwd=miss") \
  ROW(SF_LIST, "7;hit", "7;hit") \
  ROW(SF_LIST, "a, (b), 7", "a, (b), 7") \
  ROW(SF_LIST, "c;hit=?0;fwd=odd;fwd-status=99;stored;ttl=-3", \
      "c;hit=?0;fwd=odd;fwd-status=99;stored;ttl=-3") \
  ROW(SF_LIST, "c;hit=\"x\"", "c;hit=\"x\"") \
  ROW(SF_LIST, "c;stored;fwd-status=304", "c;stored;fwd-status=304") \
  ROW(SF_LIST, "c;detail=1", "c;detail=1") \
  ROW(SF_DICT, "a=1,b;x, a=(1  2 );y=:YQ:", "a=(1 2);y=:YQ==:, b;x") \
  ROW(SF_DICT, "", "") \
  ROW(SF_DICT, "a=?1;b=?1", "a;b") \
  ROW(SF_DICT, "a=%\"%c3%bc\"", "a=%\"%c3%bc\"") \
  ROW(SF_DICT, "en=\"Applepie\", da=:w4ZibGV0w6ZydGU=:", "en=\"Applepie\", da=:w4ZibGV0w6ZydGU=:") \
  ROW(SF_DICT, "a=?0, b, c; foo=bar", "a=?0, b, c;foo=bar") \
  ROW(SF_DICT, "a=(1 2), b=3, c=4;aa=bb, d=(5 6);valid", "a=(1 2), b=3, c=4;aa=bb, d=(5 6);valid") \
  ROW(SF_DICT, "u=1, i", "u=1, i") \
  ROW(SF_DICT, "a=1, b=2", "a=1, b=2") \
  ROW(SF_DICT, "b=2, a=1", "b=2, a=1") \
  ROW(SF_DICT, "a, b, a=2", "a=2, b") \
  ROW(SF_DICT, "max-age=30, s-maxage=90, no-store=?0", "max-age=30, s-maxage=90, no-store=?0") \
  ROW(SF_DICT, "max-age=30, s-maxage=90, no-store=?0, no-store", \
      "max-age=30, s-maxage=90, no-store") \
  ROW(SF_DICT, "max-age=30,s-maxage=90,no-store=?1", "max-age=30, s-maxage=90, no-store") \
  ROW(SF_DICT, "max-age=-1", "max-age=-1") \
  ROW(SF_DICT, "max-age=(1)", "max-age=(1)") \
  ROW(SF_DICT, "max-age=60;x=1", "max-age=60;x=1") \
  ROW(SF_DICT, "private=(a b), no-cache=\"x\"", "private=(a b), no-cache=\"x\"") \
  ROW(SF_DICT, "u=8, i", "u=8, i") \
  ROW(SF_DICT, "u=5, i", "u=5, i") \
  ROW(SF_DICT, "u=1.0", "u=1.0") \
  ROW(SF_DICT, "u=-0", "u=0") \
  ROW(SF_DICT, "u=1, u=9", "u=9") \
  ROW(SF_DICT, "i=1", "i=1")

/* A kind, a text that spells no value of it, the place of its refusal, the byte found there or -1,
 * and the bytes that could have stood there instead. */
#define REFUSED(ROW) \
  ROW(SF_ITEM, "a \t", 2, 0x09, "20 end") \
  ROW(SF_ITEM, "", 0, -1, "20 22 25 2a 2d 30-3a 3f-5a 61-7a") \
  ROW(SF_ITEM, "   ", 3, -1, "20 22 25 2a 2d 30-3a 3f-5a 61-7a") \
  ROW(SF_ITEM, "\t", 0, 0x09, "20 22 25 2a 2d 30-3a 3f-5a 61-7a") \
  ROW(SF_ITEM, "9999999999999999", 15, 0x39, "20 3b end") \
  ROW(SF_ITEM, "1234567890123.1", 13, 0x2e, "20 30-39 3b end") \
  ROW(SF_ITEM, "123456789012.1234", 16, 0x34, "20 3b end") \
  ROW(SF_ITEM, "1.2345", 5, 0x35, "20 3b end") \
  ROW(SF_ITEM, "1.", 2, -1, "30-39") \
  ROW(SF_ITEM, "-", 1, -1, "30-39") \
  ROW(SF_ITEM, ":YQ===:", 5, 0x3d, "3a") \
  ROW(SF_ITEM, ":Y:", 2, 0x3a, "2b 2f-39 41-5a 61-7a") \
  ROW(SF_ITEM, ":=:", 1, 0x3d, "2b 2f-3a 41-5a 61-7a") \
  ROW(SF_ITEM, ":iZ$", 3, 0x24, "2b 2f-3a 3d 41-5a 61-7a") \
  ROW(SF_ITEM, ":iZ===:", 5, 0x3d, "3a") \
  ROW(SF_ITEM, "%\"%C3\"", 3, 0x43, "30-37 63-66") \
  ROW(SF_ITEM, "%\"%C3%BC\"", 3, 0x43, "30-37 63-66") \
  ROW(SF_ITEM, "%\"%c3%28\"", 6, 0x32, "38-39 61-62") \
  ROW(SF_ITEM, "%\"%ed%a0%80\"", 6, 0x61, "38-39") \
  ROW(SF_ITEM, "%\"%c3a\"", 5, 0x61, "25") \
  ROW(SF_ITEM, "%\"%c1\"", 4, 0x31, "32-39 61-66") \
  ROW(SF_ITEM, "%\"%e0%9f%80\"", 6, 0x39, "61-62") \
  ROW(SF_ITEM, "%\"%f4%90%80%80\"", 6, 0x39, "38") \
  ROW(SF_ITEM, "%\"%f5\"", 4, 0x35, "30-34") \
  ROW(SF_ITEM, "@1.5", 2, 0x2e, "20 30-39 3b end") \
  ROW(SF_ITEM, "?2", 1, 0x32, "30-31") \
  ROW(SF_ITEM, "1, 2", 1, 0x2c, "20 2e 30-39 3b end") \
  ROW(SF_ITEM, "1 2", 2, 0x32, "20 end") \
  ROW(SF_ITEM, "\"a\\b\"", 3, 0x62, "22 5c") \
  ROW(SF_ITEM, "\"\xc3\xa9\"", 1, 0xc3, "20-7e") \
  ROW(SF_ITEM, "\"a\x7f\"", 2, 0x7f, "20-7e") \
  ROW(SF_ITEM, "\"a\" ;b", 4, 0x3b, "20 end") \
  ROW(SF_ITEM, "a;B", 2, 0x42, "20 2a 61-7a") \
  ROW(SF_ITEM, "a;b=$;b=1", 4, 0x24, "22 25 2a 2d 30-3a 3f-5a 61-7a") \
  ROW(SF_ITEM, "a;b=", 4, -1, "22 25 2a 2d 30-3a 3f-5a 61-7a") \
  ROW(SF_LIST, "\t", 0, 0x09, "20 22 25 28 2a 2d 30-3a 3f-5a 61-7a end") \
  ROW(SF_DICT, "\t", 0, 0x09, "20 2a 61-7a end") \
  ROW(SF_LIST, "a,", 2, -1, "09 20 22 25 28 2a 2d 30-3a 3f-5a 61-7a") \
  ROW(SF_LIST, "a,,b", 2, 0x2c, "09 20 22 25 28 2a 2d 30-3a 3f-5a 61-7a") \
  ROW(SF_LIST, "a, ", 3, -1, "09 20 22 25 28 2a 2d 30-3a 3f-5a 61-7a") \
  ROW(SF_LIST, "(\"x\"b)", 4, 0x62, "20 29 3b") \
  ROW(SF_LIST, "(a", 2, -1, "20-21 23-27 29-2b 2d-3b 41-5a 5e-7a 7c 7e") \
  ROW(SF_LIST, "(a  )b", 5, 0x62, "09 20 2c 3b end") \
  ROW(SF_LIST, "((a))", 1, 0x28, "20 22 25 29-2a 2d 30-3a 3f-5a 61-7a") \
  ROW(SF_LIST, "(a\tb)", 2, 0x09, "20-21 23-27 29-2b 2d-3b 41-5a 5e-7a 7c 7e") \
  ROW(SF_LIST, "a;\tb", 2, 0x09, "20 2a 61-7a") \
  ROW(SF_DICT, "u=1, ", 5, -1, "09 20 2a 61-7a") \
  ROW(SF_DICT, "a=1,A=2", 4, 0x41, "09 20 2a 61-7a") \
  ROW(SF_DICT, "a =1", 2, 0x3d, "09 20 2c end") \
  ROW(SF_DICT, "a=", 2, -1, "22 25 28 2a 2d 30-3a 3f-5a 61-7a") \
  ROW(SF_ITEM, "\"\\n\"", 2, 0x6e, "22 5c") \
  ROW(SF_DICT, "max-age=60,", 11, -1, "09 20 2a 61-7a") \
  ROW(SF_ITEM, "a,bcd", 1, 0x2c, "20-21 23-27 2a-2b 2d-3b 41-5a 5e-7a 7c 7e end")

/* The same for texts of RFC 9651 in the dialect of RFC 8941. */
#define REFUSED_8941(ROW) \
  ROW(SF_ITEM, "@1", 0, 0x40, "20 22 2a 2d 30-3a 3f 41-5a 61-7a") \
  ROW(SF_ITEM, "%\"a\"", 0, 0x25, "20 22 2a 2d 30-3a 3f 41-5a 61-7a") \
  ROW(SF_ITEM, "a;b=@1;b=1", 4, 0x40, "22 2a 2d 30-3a 3f 41-5a 61-7a")
