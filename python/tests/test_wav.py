"""WAV files as inputs and outputs of runs."""
import array
import os
import pathlib
import resource
import select
import struct
import tempfile
import threading
import types
import unittest
import unittest.mock

from support import kpn

from kpn import parts, wav


def file_with(folder, frames, bits=16, name='in.wav', rate=8000, kind=1, more=b''):
    """A WAV file with these frames, each a tuple of samples, written byte by byte."""
    channels = len(frames[0]) if frames else 1
    data = b''.join(it.to_bytes(bits // 8, 'little', signed=bits > 8) for frame in frames for it in frame)
    head = struct.pack('<HHIIHH', kind, channels, rate, rate * channels * bits // 8, channels * bits // 8, bits) + more
    chunks = b'WAVEfmt ' + struct.pack('<I', len(head)) + head + b'data' + struct.pack('<I', len(data)) + data
    path = pathlib.Path(folder, name)
    path.write_bytes(b'RIFF' + struct.pack('<I', len(chunks)) + chunks)
    return path


def copies(count):
    """A network of this many sources `x0`, `x1`, .. that copies them to sinks `y0`, `y1`, .."""
    net = kpn.Network()
    for number in range(count):
        net.sink(f'y{number}', parts.gain(net.source(f'x{number}'), 1))
    return net


class OtherOrder(array.array):
    """An array of a machine whose bytes have the other order."""

    def __new__(cls, kind, given=()):
        made = super().__new__(cls, kind, given)
        if isinstance(given, (bytes, bytearray)):
            made.byteswap()
        return made

    def tobytes(self):
        made = array.array(self.typecode, self)
        made.byteswap()
        return made.tobytes()


class Files(unittest.TestCase):
    def setUp(self):
        room = tempfile.TemporaryDirectory()
        self.addCleanup(room.cleanup)
        self.folder = room.name

    def path(self, name):
        return str(pathlib.Path(self.folder, name))


class Inputs(Files):
    def test_samples_of_16_and_24_bits(self):
        for bits in (16, 24):
            top = 2**(bits - 1)
            frames = [(0,), (1,), (-1,), (top - 1,), (-top,), (top // 3,), (-2,)]
            wav = kpn.Wav(file_with(self.folder, frames, bits))
            self.assertEqual((wav.bits, wav.rate, len(wav)), (bits, 8000, 1))
            self.assertEqual(wav[0], array.array('q', [it for it, in frames]))

    def test_a_head_of_the_extensible_form(self):
        more = struct.pack('<HHIHH', 22, 24, 4, 1, 0) + bytes.fromhex('00001000800000aa00389b71')
        wav = kpn.Wav(file_with(self.folder, [(1,), (-70_000,)], 24, kind=0xFFFE, more=more))
        self.assertEqual((wav.bits, list(wav[0])), (24, [1, -70_000]))

    def test_channels_by_number(self):
        path = file_with(self.folder, [(1, -1), (2, -2), (3, -3)], 24)
        result = copies(2).run(str(path))
        self.assertEqual((list(result['y0']), list(result['y1'])), ([1, 2, 3], [-1, -2, -3]))
        self.assertEqual(list(copies(1).run(kpn.Wav(path)[1])['y0']), [-1, -2, -3])
        self.assertEqual(list(copies(1).run({'x0': kpn.Wav(path)[1]})['y0']), [-1, -2, -3])
        remedy = "and the network 1 source: give a dict, as {'x0': kpn.Wav\\('.*in.wav'\\)\\[0\\]}"
        with self.assertRaisesRegex(kpn.KpnError, f'2 channels, {remedy}'):
            copies(1).run(str(path))
        with self.assertRaisesRegex(kpn.KpnError, '1 channel, and the network 2 sources: give a dict'):
            copies(2).run(file_with(self.folder, [(1,)], name='one.wav'))
        with self.assertRaisesRegex(kpn.KpnError, 'has 2 channels: give one'):
            copies(1).run({'x0': str(path)})

    def test_names(self):
        path = file_with(self.folder, [(5,), (-6,)])
        for given in (str(path), path, kpn.Wav(path), {'x0': str(path)}, {'x0': path}, {'x0': kpn.Wav(path)}):
            found = copies(1).run(given)['y0']
            self.assertEqual(found, array.array('q', [5, -6]))
            self.assertIsInstance(found, array.array)

    def test_an_empty_file_and_a_cut_one(self):
        self.assertEqual(list(copies(1).run(str(file_with(self.folder, [])))['y0']), [])
        for bits, size in ((16, 8), (24, 12)):
            path = file_with(self.folder, [(1, 2), (3, 4)], bits)
            data = path.read_bytes()
            for cut in (1, size // 2, size):
                path.write_bytes(data[:-cut])
                with self.assertRaisesRegex(kpn.KpnError, f'ends within its samples: {size - cut} of {size} bytes'):
                    kpn.Wav(path)

    def test_a_file_of_a_size_that_its_program_did_not_know(self):
        for bits in (16, 24):
            path = file_with(self.folder, [(1, 2), (3, 4)], bits)
            data = path.read_bytes()
            for size in (0, 0x7FFFE000, 0x7FFFFFFF, 0xFFFFFFFF):
                # With the sizes of all that follows and of the samples.
                ends = struct.pack('<I', min(size + 36, 0xFFFFFFFF)), struct.pack('<I', size)
                head = data[:4] + ends[0] + data[8:40] + ends[1]
                path.write_bytes(head + data[44:])
                self.assertEqual([list(it) for it in kpn.Wav(path)], [[1, 3], [2, 4]])
                path.write_bytes(head + data[44:-1])
                with self.assertRaisesRegex(kpn.KpnError, 'no whole WAV file: it ends within a sample'):
                    kpn.Wav(path)

    def test_a_byte_that_fills_up_is_no_sample(self):
        for count in (1, 2, 3):
            path = file_with(self.folder, [(it,) for it in range(count)], 24)
            data = path.read_bytes()
            for last in (b'\0', b'\1'):
                path.write_bytes(data[:40] + b'\xff' * 4 + data[44:] + last)
                if count % 2 and last == b'\0':
                    self.assertEqual(list(kpn.Wav(path)[0]), list(range(count)))
                else:
                    with self.assertRaisesRegex(kpn.KpnError, 'no whole WAV file: it ends within a sample'):
                        kpn.Wav(path)

    def test_an_empty_piece_of_samples_before_another_piece(self):
        path = file_with(self.folder, [])
        data = path.read_bytes() + b'LIST' + struct.pack('<I', 2) + b'xy'
        path.write_bytes(data[:4] + struct.pack('<I', len(data) - 8) + data[8:])
        self.assertEqual(list(kpn.Wav(path)[0]), [])

    def test_a_piece_without_its_last_byte(self):
        path = file_with(self.folder, [(1,)])
        data = path.read_bytes()
        size = struct.pack('<I', len(data) - 8 + 9)
        path.write_bytes(data[:4] + size + data[8:36] + b'LIST' + struct.pack('<I', 1) + b'x' + data[36:])
        with self.assertRaisesRegex(kpn.KpnError, 'no WAV file of 16 or 24 bits: it ends too early'):
            kpn.Wav(path)

    def test_a_pipe_is_refused(self):
        path = self.path('pipe.wav')
        os.mkfifo(path)
        for given in (path, {'x0': pathlib.Path(path)}):
            with self.assertRaisesRegex(kpn.KpnError, 'pipe.wav is no plain file, .* read it before the run, by `kpn'):
                copies(1).run(given, timeout=1)
        data = file_with(self.folder, [(1,), (-2,)]).read_bytes()
        writer = threading.Thread(target=pathlib.Path(path).write_bytes, args=[data])
        writer.start()
        self.assertEqual(list(copies(1).run(kpn.Wav(path))['y0']), [1, -2])
        writer.join()

    def test_what_is_no_input(self):
        for given in ('items.txt', b'o.wav', {'x0': 'items.txt'}):
            for scale in (None, 2):
                with self.assertRaisesRegex(TypeError, "the source `x0` is b?'.*a file of items is a `pathlib.Path`, "
                                                       'and the name of a WAV file a string that ends in `.wav`'):
                    copies(1).run(given, scale=scale)
        with copies(1).stream(timeout=60) as live:
            with self.assertRaisesRegex(TypeError, r"source `x0` is 'o.wav', .*`kpn.Wav\(name\)\[0\]` has the sam"):
                live.feed('o.wav')

    def test_files_that_are_refused(self):
        remedy = 'convert it to whole samples of 16 or 24 bits'
        for path, why in ((file_with(self.folder, [(1,)], 8, 'a.wav'), f'samples of 8 bits: {remedy}'),
                          (file_with(self.folder, [(1,)], 32, 'b.wav'), f'samples of 32 bits: {remedy}'),
                          (file_with(self.folder, [(1,)], 32, 'c.wav', kind=3), f'unknown format: 3: {remedy}'),
                          (pathlib.Path(self.folder, 'd.wav'), 'does not start with RIFF'),
                          (pathlib.Path(self.folder, 'e.wav'), 'ends too early')):
            if path.name == 'd.wav':
                path.write_bytes(b'no sound here, no sound here')
            if path.name == 'e.wav':
                path.write_bytes(b'RIFF')
            with self.assertRaisesRegex(kpn.KpnError, f'no WAV file of 16 or 24 bits: .*{why}'):
                copies(1).run(str(path))
        with self.assertRaises(FileNotFoundError):
            copies(1).run({'x0': self.path('missing.wav')})


class Outputs(Files):
    def test_what_is_written_is_read_again(self):
        for bits in (16, 24):
            top = 2**(bits - 1)
            result = copies(2).run({'x0': [0, -1, top - 1], 'x1': [1, -top, 7]})
            result.wav(['y0', 'y1'], self.path('out.wav'), rate=44_100, bits=bits)
            wav = kpn.Wav(self.path('out.wav'))
            self.assertEqual((wav.bits, wav.rate), (bits, 44_100))
            self.assertEqual([list(it) for it in wav], [[0, -1, top - 1], [1, -top, 7]])

    def test_its_bytes(self):
        copies(1).run([1, -2]).wav('y0', self.path('out.wav'), rate=8000)
        wanted = file_with(self.folder, [(1,), (-2,)]).read_bytes()
        self.assertEqual(pathlib.Path(self.folder, 'out.wav').read_bytes(), wanted)

    def test_a_machine_with_the_other_order(self):
        other = 'little' if wav.sys.byteorder == 'big' else 'big'
        for bits in (16, 24):
            frames = [(1,), (-2,), (2**(bits - 1) - 1,), (-2**(bits - 1),)]
            path, items = file_with(self.folder, frames, bits), [it for it, in frames]
            with unittest.mock.patch('sys.byteorder', other), \
                    unittest.mock.patch('kpn.wav.array', types.SimpleNamespace(array=OtherOrder)):
                found = list(kpn.Wav(path)[0])
                wav.write_wav(self.path('out.wav'), ['y'], [items], 8000, bits)
            self.assertEqual(found, items)
            self.assertEqual(pathlib.Path(self.path('out.wav')).read_bytes(), path.read_bytes())

    def test_an_old_file_stays_if_the_new_one_fails(self):
        result, path = copies(1).run([1, 2] * 1000), pathlib.Path(self.folder, 'old.wav')
        path.write_bytes(b'old')
        with self.assertRaisesRegex(kpn.KpnError, '`rate` is 3000000000: it has to be from 1 to 2147483647'):
            result.wav('y0', path, rate=3 * 10**9)
        with self.assertRaisesRegex(kpn.KpnError, '32768 sinks are given: a file of 16 bits has from 1 to 32767 chann'):
            result.wav(['y0'] * 32_768, path)
        limits = resource.getrlimit(resource.RLIMIT_FSIZE)
        resource.setrlimit(resource.RLIMIT_FSIZE, (1000, limits[1]))
        try:
            with self.assertRaises(OSError):
                result.wav('y0', path)
        finally:
            resource.setrlimit(resource.RLIMIT_FSIZE, limits)
        self.assertEqual((path.read_bytes(), os.listdir(self.folder)), (b'old', ['old.wav']))

    def test_the_largest_numbers(self):
        result = copies(1).run([1])
        result.wav('y0', self.path('out.wav'), rate=2**31 - 1)
        self.assertEqual(kpn.Wav(self.path('out.wav')).rate, 2**31 - 1)
        result.wav(['y0'] * 21_845, self.path('out.wav'), bits=24)
        self.assertEqual(len(kpn.Wav(self.path('out.wav'))), 21_845)
        with self.assertRaisesRegex(kpn.KpnError, 'from 1 to 21845 channels'):
            result.wav(['y0'] * 21_846, self.path('out.wav'), bits=24)

    def test_what_stands_at_the_path(self):
        """The rights of an old file stay, a link goes on to lead to the file, and a pipe is written."""
        result, path, link = copies(1).run([1, -2]), self.path('old.wav'), self.path('link.wav')
        wanted = file_with(self.folder, [(1,), (-2,)]).read_bytes()
        pathlib.Path(path).write_bytes(b'old')
        os.chmod(path, 0o640)
        os.symlink('old.wav', link)
        result.wav('y0', link, rate=8000)
        self.assertTrue(os.path.islink(link))
        self.assertEqual((pathlib.Path(path).read_bytes(), os.stat(path).st_mode & 0o777), (wanted, 0o640))
        for data, error in ((wanted, None), (b'', BrokenPipeError)):
            self.assertEqual(self.through_a_pipe(result, bool(data)), (data, error))
        with self.assertRaises(FileNotFoundError):
            result.wav('y0', self.path('nowhere/out.wav'))

    def through_a_pipe(self, result, is_read):
        """What the reader of a pipe gets of a file of the result, and the error of the writer if the reader goes."""
        path = self.path('pipe.wav')
        if not os.path.exists(path):
            os.mkfifo(path)
        reader = os.open(path, os.O_RDONLY | os.O_NONBLOCK)
        errors = []

        def write():
            try:
                result.wav(['y0'] * (1 if is_read else 30_000), path, rate=8000)
            except OSError as error:
                errors.append(type(error))
        writer = threading.Thread(target=write)
        writer.start()
        select.select([reader], [], [], 60)
        # A pipe holds all of the small file and not all of the large one.
        if is_read:
            writer.join()
        data = os.read(reader, 1000) if is_read else b''
        os.close(reader)
        writer.join()
        return data, errors[0] if errors else None

    def test_an_item_out_of_range(self):
        result = copies(1).run([1, 40_000, -40_000])
        with self.assertRaisesRegex(kpn.KpnError, 'item 1 of the sink `y0` is 40000, out of range'):
            result.wav('y0', self.path('out.wav'))
        self.assertFalse(pathlib.Path(self.folder, 'out.wav').exists())
        result.wav('y0', self.path('out.wav'), clip=True)
        self.assertEqual(list(kpn.Wav(self.path('out.wav'))[0]), [1, 32_767, -32_768])
        result.wav('y0', self.path('out.wav'), bits=24)
        self.assertEqual(list(kpn.Wav(self.path('out.wav'))[0]), [1, 40_000, -40_000])

    def test_what_is_refused(self):
        result = copies(2).run({'x0': [1, 2], 'x1': [1]})
        for words, why in (({'bits': 8}, '`bits` is 8'), ({'rate': 0}, '`rate` is 0'),
                           ({'sinks': ['y0', 'y1']}, 'unequally many items, 2 of `y0`, 1 of `y1`'),
                           ({'sinks': []}, '0 sinks are given')):
            with self.assertRaisesRegex(kpn.KpnError, why):
                result.wav(**{'sinks': 'y0', 'path': self.path('out.wav'), **words})
        with self.assertRaises(KeyError):
            result.wav('z', self.path('out.wav'))
        with self.assertRaises(TypeError):
            result.wav('y0', self.path('out.wav'), rate=1.5)


if __name__ == '__main__':
    unittest.main()
