import os

from masking.files import beside, read_bytes, read_text, write_bytes
from masking.tests.room import InRoom, read


class Files(InRoom):
    def test_bytes_come_back(self):
        data = bytes(range(256))
        write_bytes(self.path("all"), data)
        self.assertEqual((read_bytes(self.path("all")), read(self.path("all"))), (data, data))

    def test_what_cannot_be_opened(self):
        self.assert_refused("nowhere: No such file or directory", read_bytes, self.path("nowhere"))
        self.assert_refused("nowhere: No such file or directory", read_text, self.path("nowhere"))
        self.assert_refused("no/where: No such file or directory", write_bytes, self.path(os.path.join("no", "where")), b"")

    def test_text(self):
        self.assertEqual(read_text(self.file("t", "½ a\r\nb")), "½ a\r\nb")

    def test_one_mark_at_the_front_is_dropped(self):
        mark = b"\xef\xbb\xbf"
        self.assertEqual(read_text(self.file("t", mark + b"a" + mark)), "a\ufeff")
        self.assertEqual(read_text(self.file("t", mark + mark)), "\ufeff")

    def test_what_is_no_text(self):
        self.assert_refused("t line 1: not UTF-8 text", read_text, self.file("t", b"\xff"))
        self.assert_refused("t line 3: not UTF-8 text", read_text, self.file("t", b"\xef\xbb\xbfa\nb\nc\xc3\nd\xff"))

    def test_beside(self):
        self.assertEqual(beside("a.b/c.csv", ".sheet"), "a.b/c.sheet")
        self.assertEqual(beside("a.b/c", ".names"), "a.b/c.names")
        self.assertEqual(beside("c.d.csv", ".sheet"), "c.d.sheet")
