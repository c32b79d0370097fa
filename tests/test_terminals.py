"""What a terminal shows of pieces, and what messages mean."""
import os

from common import TOP, Test
from link import Line
from terminals import KEPT, PROMPT, SUPERVISOR, WIDEST, Terminal, read_messages


class TerminalTest(Test):
    def setUp(self):
        super().setUp()
        self.terminal = Terminal(1, True, {b"FEHLER : unbekannt": b"Den Namen gibt es nicht."})

    def lines(self):
        return list(self.terminal.lines)

    def serve(self, data, pieces):
        line = Line(data)
        line.pieces = pieces
        self.terminal.served(line)
        return self.terminal.free

    def stays_free(self, text, pieces):
        self.terminal.free = True
        return self.serve(b"1>" + text, pieces)

    def test_a_prompt_and_a_message_begin_a_line_and_an_open_piece_is_continued(self):
        for text in (PROMPT, b",1 ", b",2 ", b"3", b",4 ", b"FEHLER : x", PROMPT):
            self.terminal.show(text.lstrip(b","), text[:1] != b",")
        self.assertEqual(self.lines(), [PROMPT + b" 1 2 3", b"4 ", b"FEHLER : x", PROMPT + b" "])

    def test_a_refusal_shows_what_stands_at_its_place(self):
        self.terminal.rows = [b"put (1);", b"put (aple)"]
        self.terminal.show(b"FEHLER : unbekannt (Zeile 2, Stelle 6)", True)
        self.assertEqual(self.lines()[1], b'  -> bei "aple)": Den Namen gibt es nicht.')
        self.terminal.show(b"FEHLER : unbekannt (Zeile 1, Stelle 9)", True)
        self.assertEqual(self.lines()[3], b"  -> am Ende: Den Namen gibt es nicht.")
        for line in (b"0", b"3", b"99999999999999999999"):
            self.terminal.show(b"FEHLER : unbekannt (Zeile %s, Stelle 6)" % line, True)
            self.assertEqual(self.lines()[-2], b"  -> Den Namen gibt es nicht.")

    def test_the_text_whose_places_are_meant(self):
        self.terminal.texts = {b'"t"': [b"put (1)"], b'"a""b"': [b"put (2)"]}
        for typed, rows in ((b'run ("t")', [b"put (1)"]), (b' insert("a""b") ', [b"put (2)"]), (b'run ("u")', []),
                            (b"put (3)", [b"put (3)"]), (b"run := 1", [b"run := 1"]), (b'enter ("t")', []),
                            (b'run ("t")', []), (b"", [b""]), (b"\xff\n", [b"\xff\n"])):
            self.terminal.type(typed)
            self.assertEqual(self.terminal.rows, rows, typed)
        self.serve(b"1^", [SUPERVISOR])
        self.assertEqual((self.terminal.free, self.terminal.texts), (True, {}))

    def test_lines_and_their_bytes_are_bounded(self):
        for number in range(3 * KEPT):
            self.terminal.show(b"%d" % number, True)
        for _ in range(100):
            self.terminal.show(100 * b"x", False)
        self.assertEqual((len(self.lines()), len(self.lines()[-1])), (KEPT, WIDEST))

    def test_what_is_looked_at_stays_while_more_is_shown(self):
        for number in range(30):
            self.terminal.show(b"%d" % number, True)
        self.terminal.scroll(8)
        at = self.lines()[-1 - self.terminal.back]
        self.terminal.show(b"more", True)
        self.assertEqual(self.lines()[-1 - self.terminal.back], at)
        self.terminal.scroll(-100)
        self.assertEqual(self.terminal.back, 0)

    def test_a_channel_stays_free_only_where_that_is_sure(self):
        self.assertTrue(self.stays_free(b"task info", [b"UR frei", b"  PUBLIC frei", SUPERVISOR]))
        self.assertTrue(self.stays_free(b'continue ("x")', [b"Task gibt es nicht", SUPERVISOR]))
        self.assertTrue(self.stays_free(b"  ", [SUPERVISOR]))
        for pieces in ([SUPERVISOR], [PROMPT], [], [b"FEHLER : halt vom Terminal", PROMPT]):
            self.assertFalse(self.stays_free(b'continue ("x")', pieces))


class MessagesTest(Test):
    def test_the_page_of_the_documents(self):
        found = read_messages(os.path.join(TOP, "docs/messages.md"))
        self.assertEqual(found[b"FEHLER : kein Symbol"].split()[0], b"An")
        for name in (b"unbekannt", b"kein ELAN-Text", b"keine Variable", b"INT-Ueberlauf", b"halt vom Terminal"):
            self.assertGreater(len(found[b"FEHLER : " + name]), 10, name)

    def test_no_page(self):
        self.assertEqual(read_messages(self.path("nothing")), {})
        self.assertEqual(read_messages(self.path("page", b"\xff| ### `")), {})
