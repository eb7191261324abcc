"""The passes from a Rattle source to a Rust one, in their order."""

from rt_to_rust import forms
from rt_to_rust.allocators import without_allocators
from rt_to_rust.borrowing import borrowed
from rt_to_rust.bounds import without_drops
from rt_to_rust.by_value import by_value, lent_on
from rt_to_rust.defaults import with_defaults
from rt_to_rust.derive_where import written_out
from rt_to_rust.devices import tried_again, with_devices
from rt_to_rust.docs import ghost_members, spoken
from rt_to_rust.ghosts import without_proofs
from rt_to_rust.growth import grown
from rt_to_rust.host import on_host
from rt_to_rust.imports import placed, with_memory
from rt_to_rust.inlined import with_inlined
from rt_to_rust.lifetimes import fixed_parameters, with_fixed_lifetimes
from rt_to_rust.memory_forms import renamed, with_plain_forms
from rt_to_rust.runtime import without_runtime
from rt_to_rust.shared_forms import shared_forms
from rt_to_rust.source import Source
from rt_to_rust.visibility import guarded, open_enums, with_panics


class Used:
    """The rows of the converter's tables that a conversion used: a row that nothing uses is out of date."""

    def __init__(self):
        self.checks = set()
        self.both_forms = set()
        self.left_out = set()
        self.inlined = set()
        self.lifetimes = set()
        self.shared_forms = set()
        self.versions = set()

    def add(self, other):
        """Adds the rows that another conversion used."""
        for name, rows in vars(self).items():
            rows |= getattr(other, name)


def rust(path, text, place, public, clones, used):
    """The Rust source of a Rattle source. `public` has the public names of the library, and `clones` the types whose
    copies may be refused."""
    source = Source(path, text)
    unspoken = ghost_members(source) | fixed_parameters(place)
    if not place.public:
        source = open_enums(guarded(source, public, used.checks))
    source = without_proofs(source, is_test=place.is_test)
    source = with_fixed_lifetimes(source, place, used.lifetimes)
    source = without_drops(source)
    if place.is_test:
        source = without_runtime(source)
    elif place.public:
        source = on_host(source, used.versions)
    if place.is_program():
        source = source.changed(tried_again(source))
    source = with_devices(source, place.is_test, used.left_out)
    is_called_by_others = not place.is_test and not place.is_program()
    source = by_value(source, None if place.public else public) if is_called_by_others else lent_on(source)
    source = borrowed(source)
    source = source.changed(forms.json_writers(source))
    source = renamed(source, clones, used.both_forms)
    source = source.changed(shared_forms(source, used.shared_forms))
    source = grown(source)
    source = placed(source, place, public)
    source = forms.rust_calls(without_allocators(source))
    # From here lines are added.
    source = with_memory(source, place)
    source = with_panics(with_plain_forms(written_out(source), public))
    source = with_defaults(source)
    if is_called_by_others:
        source = with_inlined(source, used.inlined)
    return spoken(source, unspoken, place.is_test).marks_removed().lstrip("\n")
