"""The binding over the samples of the repository: python3 -m unittest discover bindings/python/tests"""

import hashlib
import mmap
import os
import pickle
import sys
import tempfile
import threading
import unittest

ROOT = os.path.dirname(os.path.dirname(os.path.dirname(os.path.dirname(os.path.abspath(__file__)))))
sys.path.insert(0, os.path.join(ROOT, "bindings", "python"))

import pst  # noqa: E402


def sample(name):
    return os.path.join(ROOT, "samples", name)


def bytes_of(name):
    with open(sample(name), "rb") as file:
        return file.read()


class Answers(unittest.TestCase):
    def test_report(self):
        with pst.open(sample("mail.pst")) as store:
            report = store.report
        self.assertEqual((report.folders, report.messages, report.nodes), (5, 4, 26))
        self.assertEqual(report.lost, ())
        with pst.open(sample("growths.pst")) as store:
            self.assertEqual(store.report.lost, (pst.Lost(271168, 128),))

    def test_folders_and_messages(self):
        with pst.open(sample("mail.pst")) as store:
            folder = store.folders()[4]
            message = store.messages()[0]
        self.assertEqual((folder.name, folder.messages), ("Inbox", 4))
        self.assertEqual(folder.path, ("0x122", "0x8022", "0x8082"))
        self.assertEqual((message.title, message.kind), ("Message number 0", "IPM.Note"))
        with pst.open(sample("m0.pst")) as store:
            self.assertEqual(store.messages(), [])

    def test_props(self):
        with pst.open(sample("mail.pst")) as store:
            first, second = store.all_props(["0x400004", "0x400024"])
            self.assertEqual(store.all_props([]), [])
        self.assertEqual(first.props.text("0C1F"), "s0@example.org")
        self.assertEqual(first.recipients[0].text("3001001F"), "Reader")
        self.assertEqual(first.attachments[0].name, "file0.bin")
        self.assertEqual(second.attachments[0].embedded, "0x400024/0x8045/0x200024")
        self.assertIsNone(second.attachments[0].data)
        sent = first.props.get("0039")
        self.assertEqual(pst.time_of(sent.value).isoformat(), "2019-04-17T18:40:00+00:00")

    def test_names(self):
        with pst.open(sample("m2.pst")) as store:
            prop = store.props("0x122").props.named("Hi", "33221100-5544-7766-8899-aabbccddeeff")
        self.assertEqual((prop.id, prop.value), ("8000", 5))

    def test_values_are_the_bytes_of_the_file(self):
        with pst.open(sample("mail.pst")) as store:
            for node in store.all_props(it.nid for it in store.messages()):
                for prop in node.props:
                    self.assertEqual(prop.read(), store.value(node.path, prop.id), prop)
            self.assertEqual(store.value("0x400004", "0C1F", text=True), b"s0@example.org")

    def test_text_is_not_copied(self):
        data = bytearray(bytes_of("m0.pst"))
        store = pst.Store(data)
        view = store.props("0x21").props.get("3001").view
        self.assertEqual(view.tobytes().decode("utf-16-le"), "M0")
        data[19484] = ord("N")
        self.assertEqual(view.tobytes().decode("utf-16-le"), "N0")
        self.assertTrue(view.readonly)


class Refusals(unittest.TestCase):
    def test_fault(self):
        data = bytearray(bytes_of("m0.pst"))
        data[19550] = ord("X")
        with self.assertRaises(pst.Refused) as caught:
            pst.Store(data).report
        no = caught.exception
        self.assertEqual((no.number, no.kind, no.value), (14, "BlockTrailer", None))
        self.assertEqual((no.at, no.bid, no.nid), (0x4C40, 8, 0))
        self.assertEqual(str(no), "no: 14 BlockTrailer at 0x4c40 bid 0x8 nid 0x0")
        self.assertEqual(str(pickle.loads(pickle.dumps(no))), str(no))

    def test_what_there_is_not(self):
        with pst.open(sample("mail.pst")) as store:
            for path in ("0x999", "0x400024/0x8045/0x999"):
                with self.assertRaisesRegex(pst.Missing, f"^no node {path}$"):
                    store.props(path)
            with self.assertRaisesRegex(pst.Missing, "^no property 9999$"):
                store.value("0x400004", "9999")
            with self.assertRaisesRegex(pst.BadWords, "^bad node id$"):
                store.props("none")
            with self.assertRaises(ValueError):
                store.props("0x21\0")

    def test_a_node_that_is_a_table(self):
        line = "no: 21 Heap at 0x4c80 bid 0xc nid 0x12d"
        with pst.open(sample("m1.pst")) as store:
            for ask in (
                lambda: store.props("0x12D"),
                lambda: store.all_props(["0x21", "0x12d"]),
                lambda: store.value("0x12D", "3001", text=True),
            ):
                with self.assertRaises(pst.NodeRefused) as caught:
                    ask()
                self.assertNotIsInstance(caught.exception, pst.Refused)
                self.assertEqual(str(caught.exception), line)
                self.assertIsInstance(pickle.loads(pickle.dumps(caught.exception)), pst.NodeRefused)
            self.assertEqual(store.report.nodes, 4)

    def test_the_same_kind_of_the_file(self):
        # The heap of the root folder says that it is a table, and the check value of its block is right.
        data = bytearray(bytes_of("m1.pst"))
        data[0x4C43] = 0x7C
        data[0x4C74:0x4C78] = bytes.fromhex("ba2ff14d")
        store = pst.Store(data)
        for ask in (lambda: store.report, lambda: store.props("0x122"), lambda: store.props("0x12D")):
            with self.assertRaises(pst.Refused) as caught:
                ask()
            self.assertEqual(str(caught.exception), "no: 21 Heap at 0x4c40 bid 0x8 nid 0x122")

    def test_no_bytes(self):
        for data in (b"", bytearray(), memoryview(b"")):
            self.assertEqual(pst.answer(["check", "-"], data)[0], 1)
        with tempfile.NamedTemporaryFile() as file, pst.open(file.name) as store:
            with self.assertRaises(pst.Refused) as caught:
                store.report
        self.assertEqual(caught.exception.kind, "Short")

    def test_words(self):
        self.assertEqual(pst.answer([], b"")[:2], (2, b""))
        self.assertEqual(pst.answer(["--version"], b""), (0, b"pst_show 1.0.4\n", b""))
        self.assertEqual(pst.answer(["explain", "none"], b""), (2, b"", b"bad kind\n"))

    def test_no_file(self):
        with self.assertRaises(FileNotFoundError):
            pst.open(sample("none.pst"))


class Whole(unittest.TestCase):
    @staticmethod
    def damaged(name, at):
        data = bytearray(bytes_of(name))
        data[at] ^= 1
        return data

    def test_what_is_left(self):
        # A byte of the block of the first message's properties.
        for name in ("mail.pst", "mail_permute.pst", "mail_cyclic.pst"):
            data = self.damaged(name, 22473)
            with self.assertRaises(pst.Refused):
                pst.Store(data).messages()
            store = pst.Store(data, whole=True)
            self.assertEqual([it.nid for it in store.messages()], ["0x400024", "0x400044", "0x400064"])
            self.assertEqual([it.messages for it in store.folders()], [0, 0, 0, 0, 4])
            for ask in (lambda: store.props("0x400004"), lambda: store.value("0x400004/0x8025", "3701")):
                with self.assertRaises(pst.NodeRefused) as caught:
                    ask()
                self.assertEqual(str(caught.exception), "no: 15 BlockMissing at 0x0 bid 0xc nid 0x400004")
            with self.assertRaises(pst.Refused):
                store.report

    def test_views_of_encoded_values(self):
        with pst.open(sample("mail.pst")) as store:
            wanted = store.value("0x400044/0x8025", "3701")
        for name in ("mail.pst", "mail_permute.pst", "mail_cyclic.pst"):
            store = pst.Store(self.damaged(name, 22473), whole=True)
            data = store.props("0x400044").attachments[0].data
            self.assertEqual(store.value("0x400044/0x8025", "3701"), wanted)
            if name == "mail.pst":
                self.assertEqual(data.view, wanted)
            else:
                with self.assertRaises(ValueError):
                    data.read()

    def test_of_a_store_the_same(self):
        for name in ("mail.pst", "growths.pst", "m0.pst", "mail_cyclic.pst"):
            with pst.open(sample(name), decode=True) as plain, pst.open(sample(name), decode=True, whole=True) as whole:
                self.assertEqual(plain.messages(), whole.messages())
                self.assertEqual(plain.folders(), whole.folders())
                for message in plain.messages():
                    self.assertEqual(plain.props(message.nid).recipients, whole.props(message.nid).recipients)

    def test_no_pst(self):
        for data in (b"", bytes(1000)):
            with self.assertRaises(pst.Refused):
                pst.Store(data, whole=True).props("0x21")


class Decoding(unittest.TestCase):
    def test_views_are_decoded(self):
        with pst.open(sample("mail.pst")) as plain:
            wanted = plain.props("0x400004").attachments[0].data.read()
        for name in ("mail_permute.pst", "mail_cyclic.pst"):
            before = hashlib.sha256(bytes_of(name)).digest()
            with pst.open(sample(name)) as store, self.assertRaises(pst.Refused):
                store.report
            for mapped in (True, False):
                with pst.open(sample(name), decode=True, mapped=mapped) as store:
                    data = store.props("0x400004").attachments[0].data
                    self.assertEqual(data.view, wanted)
            after = hashlib.sha256(bytes_of(name)).digest()
            self.assertEqual(before, after)

    def test_same_as_by_the_flag(self):
        for name in ("mail_permute.pst", "mail_cyclic.pst", "mail.pst"):
            data = bytes_of(name)
            by_flag = pst.answer(["messages", "--decode", "-"], data)
            with pst.open(sample(name), decode=True) as store:
                self.assertEqual(by_flag, (0, store.answer("messages", "-"), b""))


class Views(unittest.TestCase):
    def test_over_with_the_store(self):
        with pst.open(sample("mail.pst")) as store:
            data = store.props("0x400004").attachments[0].data
            view = data.view
            self.assertEqual(len(view), 100)
        with self.assertRaises(ValueError):
            view[0]
        with self.assertRaises(ValueError):
            data.view
        with self.assertRaises(ValueError):
            store.report

    def test_one_that_is_kept(self):
        with self.assertRaises(pst.InUse):
            with pst.open(sample("mail.pst")) as store:
                kept = store.props("0x400004").attachments[0].data.view[2:5]
        self.assertEqual(len(bytes(kept)), 3)
        kept.release()
        store.close()

    def test_an_error_is_not_hidden(self):
        with self.assertRaises(KeyError):
            with pst.open(sample("mail.pst")) as store:
                kept = store.props("0x400004").attachments[0].data.view[2:5]
                raise KeyError
        kept.release()

    def test_pieces(self):
        with pst.open(sample("growths.pst")) as store:
            nodes = store.all_props(it.nid for it in store.messages())
            values = [prop for node in nodes for prop in node.props]
            values += [prop for node in nodes for it in node.attachments for prop in it.props]
            for value in values:
                if len(value.places) > 1:
                    self.assertEqual(b"".join(value.views), value.read())
                    with self.assertRaises(ValueError):
                        value.view
                else:
                    self.assertEqual(value.view, value.read())


class Threads(unittest.TestCase):
    def test_one_store(self):
        wrong = []

        def work(store, wanted):
            for _ in range(50):
                if store.report != wanted:
                    wrong.append(1)

        with pst.open(sample("mail.pst")) as store:
            threads = [threading.Thread(target=work, args=(store, store.report)) for _ in range(4)]
            for thread in threads:
                thread.start()
            for thread in threads:
                thread.join()
        self.assertEqual(wrong, [])


class Lenders(unittest.TestCase):
    def test_any(self):
        data = bytes_of("m0.pst")
        wanted = pst.Store(data).report
        with open(sample("m0.pst"), "rb") as file:
            mapped = mmap.mmap(file.fileno(), 0, access=mmap.ACCESS_READ)
            for lender in (bytearray(data), memoryview(data), mapped):
                self.assertEqual(pst.Store(lender).report, wanted)
        with self.assertRaises(BufferError):
            pst.Store(memoryview(data)[::2]).report
        with self.assertRaises(TypeError):
            pst.Store("text")


if __name__ == "__main__":
    unittest.main()
