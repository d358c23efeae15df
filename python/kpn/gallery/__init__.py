"""Networks of signal processing and a wavefront, built by the package.

Each module has `build()`, which gives the network; `inputs(count)`, which gives that many items for each source; and
`expected(inputs)`, which computes the sinks by plain Python in another way.
"""
from . import biquad, cic, cordic, delta_sigma, fft, fir, matrix, pid, run_length, wavefront

GALLERY = {it.__name__.rpartition('.')[2]: it
           for it in (biquad, cic, cordic, delta_sigma, fft, fir, matrix, pid, run_length, wavefront)}


def stored_text(name: str) -> str:
    """The text of a network of the gallery as `examples/gallery/` of the repository has it, with a comment."""
    module = GALLERY[name]
    network = module.build()
    sources = ' '.join(f'--source {it}=FILE' for it in network.layout().sources)
    comment = [*(module.__doc__ or '').strip().splitlines(), '', f'python/kpn/gallery/{name}.py has built it.', '',
               f'  ./kpn run examples/gallery/{name}.kpn {sources}']
    return ''.join(f'# {line}'.rstrip() + '\n' for line in comment) + f'\n{network}'
