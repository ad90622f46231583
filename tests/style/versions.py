"""Each place that says the version says that of VERSION."""

from tests.harness.paths import read_text

SECONDS, GATE = 1, "beside"
# Files, and what stands round the version in them.
PLACES = {
    "crates/camp_options/src/help.rt": 'VERSION: &str = "{}"',
    "clients/python/camp/_library.py": 'VERSION = "{}"',
    "clients/python/pyproject.toml": 'version = "{}"',
    "apps/campvc/campvc/__init__.py": '__version__ = "{}"',
    "apps/campvc/pyproject.toml": 'version = "{}"',
    "clients/rust/Cargo.toml": 'version = "{}"',
    "clients/rust/etcd/Cargo.toml": 'version = "{}"',
}


def run(report, words):
    version = read_text("VERSION").strip()
    for path, form in PLACES.items():
        report.expect(f"{path} has {form.format(version)}", f"{form.format(version)}\n" in read_text(path).replace(";\n", "\n"), True)
        report.count("places")
