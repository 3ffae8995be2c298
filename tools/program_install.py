"""Where the proved programs are installed, each with its manual page and completion for bash."""
import c_install
import crates

PACKAGES = crates.TOP / "packages"
# Bash loads the file of a program's name. All programs are completed by one file.
COMPLETIONS = "share/bash-completion/completions"


def parts(prefix, environment, programs=crates.PROGRAMS):
    """What is installed of some programs, as `c_install.parts` has it of the library."""
    man = c_install.folders(prefix, environment)["man"]
    for name in programs:
        yield f"{prefix}/bin/{name}", crates.program(name)
        yield f"{man}/man1/{name}.1", PACKAGES / "man" / f"{name}.1"
        yield f"{prefix}/{COMPLETIONS}/{name}", PACKAGES / "completion.bash"
