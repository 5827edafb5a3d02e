#!/usr/bin/env python3
"""crates.py TREE: what moves between crates, and isn't a rename.

1. `wamp_messages`, out of `session`: what clients say and are owed, as types; with `request_options` in it.
2. `realm_core`: the facade goes, and `schedules` takes its name and its exports.
3. Words of a realm (`IdSource`) go from `realm_inbox` to `realm_actor`; the posters' third, `FarewellPoster`, from `broker_threads` to
   `connection`; `Seats` from `connection` to `threaded_server`.

Run it before `restructure` with renames.table.
"""
import glob
import os
import re
import shutil
import sys

TREE = sys.argv[1]
CRATES = f"{TREE}/crates"
CODE = (".rt", ".antt", ".edit")
TYPES_ALONE = ("retained", "realm", "schedules", "realm_inbox", "realm_actor")


def files(crate="*", endings=CODE):
    return [it for it in glob.glob(f"{CRATES}/{crate}/**/*", recursive=True) if it.endswith(endings) and "/out/" not in it]


def edit(path, change):
    with open(path, encoding="utf-8") as it:
        old = it.read()
    new = change(old)
    if new != old:
        with open(path, "w", encoding="utf-8") as it:
            it.write(new)


def write(path, text):
    os.makedirs(os.path.dirname(path), exist_ok=True)
    with open(path, "w", encoding="utf-8") as it:
        it.write(text)


def move(old, new):
    os.makedirs(os.path.dirname(f"{CRATES}/{new}"), exist_ok=True)
    shutil.move(f"{CRATES}/{old}", f"{CRATES}/{new}")


def everywhere(change, crate="*", endings=CODE):
    for path in files(crate, endings):
        edit(path, change)


def drop_lines(path, pattern):
    edit(path, lambda text: re.sub(rf"(?m)^{pattern}\n", "", text))


def messages():
    for name in ("src/messages/said.rt", "src/messages/item.rt", "specs/Kinds.antt", "specs/Arguments.antt", "proofs/SendLemmas.antt"):
        move(f"session/{name}", f"wamp_messages/{name.replace('messages/', '')}")
    for name in ("kinds", "publish_options", "publish_values", "subscribe_options", "subscribe_values"):
        move(f"request_options/src/{name}.rt", f"wamp_messages/src/{name}.rt")
    for name in ("specs/Options.antt", "specs/body.antt", "specs/body", "proofs/Kept.antt", "proofs/publish_values", "proofs/subscribe_values", "must-fail", "planted"):
        move(f"request_options/{name}", f"wamp_messages/{name}")
    shutil.rmtree(f"{CRATES}/request_options")
    move("session/planted/hello_is_a_request.edit", "wamp_messages/planted/hello_is_a_request.edit")
    edit(f"{CRATES}/wamp_messages/planted/hello_is_a_request.edit", lambda text: text.replace("src/messages/said.rt", "src/said.rt"))
    write(f"{CRATES}/wamp_messages/specs/Lib.antt", "pub mod Options\npub mod Arguments\npub mod Kinds\npub mod body\n")
    write(f"{CRATES}/wamp_messages/proofs/Lib.antt", "pub mod SendLemmas\npub mod Kept\n")
    write(f"{CRATES}/wamp_messages/src/lib.rt", '''//! What clients say and what the broker owes them, as types; and what the options of a request ask for, read once, as soon as
//! their message is read, from the octets of MessagePack where they stand or from a dictionary.
//!
//! The octets of messages are `session`'s. Contracts say what each option asks for, by its name and its kind, and that both ways of
//! reading give the same.
#![tactic(auto)]

mod item;
mod kinds;
mod publish_options;
mod publish_values;
mod said;
mod subscribe_options;
mod subscribe_values;

pub use arguments::{Args, CarriedArgs, Decoded};
pub use eligibility::{Lists, Who};
pub use item::{Item, Publication, Reason, Request};
pub use publish_options::PublishOptions;
pub use said::{Said, SaidKind};
pub use subscribe_options::SubscribeOptions;
''')

    def paths(text):
        text = re.sub(r"Rattle\.session\.specs\.(declared|contracts)\.messages\.(said|item)\b", r"Rattle.wamp_messages.specs.\1.\2", text)
        text = re.sub(r"Rattle\.session\.specs\.(Kinds|Arguments)\b", r"Rattle.wamp_messages.specs.\1", text)
        text = text.replace("Rattle.session.proofs.SendLemmas", "Rattle.wamp_messages.proofs.SendLemmas")
        return text.replace("Rattle.request_options.", "Rattle.wamp_messages.")

    everywhere(paths)
    everywhere(lambda text: re.sub(r"crate::messages::(said|item)::", "wamp_messages::", text), "session", (".rt",))
    everywhere(lambda text: re.sub(r"\brequest_options::", "wamp_messages::", text), endings=(".rt", ".edit"))
    everywhere(lambda text: re.sub(r"\buse wamp_messages::\{PublishOptions, SubscribeOptions\};", "use crate::publish_options::PublishOptions;\nuse crate::subscribe_options::SubscribeOptions;", text), "wamp_messages", (".rt",))
    drop_lines(f"{CRATES}/session/src/messages.rt", r"(?:pub(?:\([a-z]+\))? )?mod (?:said|item);")
    for kind in ("specs", "proofs"):
        drop_lines(f"{CRATES}/session/{kind}/Lib.antt", "pub mod (?:Kinds|Arguments|SendLemmas)")

    def exports(text):
        text = re.sub(r"pub use (arguments|eligibility|request_options|wamp_messages)::\{[^}]*\};\n", "", text)
        text = re.sub(r"pub use messages::(item|said)::\{[^}]*\};\n", "", text)
        return text.rstrip("\n") + "\npub use wamp_messages::{Args, CarriedArgs, Decoded, Item, Lists, Publication, PublishOptions, Reason, Request, Said, SaidKind, SubscribeOptions, Who};\n"

    edit(f"{CRATES}/session/src/lib.rt", exports)
    for crate in TYPES_ALONE:
        everywhere(lambda text: re.sub(r"\buse session::", "use wamp_messages::", text), crate, (".rt",))


def needs(text):
    """The lines of crates.txt."""
    out = []
    for line in text.split("\n"):
        name, _, rest = line.partition(":")
        crate, words = name.split(" ")[0], rest.split()
        if line.startswith("#") or not line:
            out.append(line)
            continue
        if crate in ("request_options", "realm_core"):
            continue
        words = [("wamp_messages" if it == "request_options" else "realm_core" if it == "schedules" else it) for it in words]
        if crate in TYPES_ALONE:
            words = ["wamp_messages" if it == "session" else it for it in words]
        elif "session" in words:
            words.insert(words.index("session") + 1, "wamp_messages")
        if crate == "session":
            out.append("wamp_messages: wamp_ids message_tree msgpack_codec msgpack_canonical msgpack_cursor eligibility arguments")
            words.insert(0, "wamp_messages")
        words = list(dict.fromkeys(words))
        out.append(f"{name.replace('schedules', 'realm_core')}:" + "".join(f" {it}" for it in words))
    return "\n".join(out)


def core():
    shutil.rmtree(f"{CRATES}/realm_core")
    shutil.move(f"{CRATES}/schedules", f"{CRATES}/realm_core")
    everywhere(lambda text: text.replace("Rattle.schedules.", "Rattle.realm_core."))
    everywhere(lambda text: re.sub(r"(?<![\w:.])schedules::", "realm_core::", text).replace("crates/schedules/", "crates/realm_core/"), endings=(".rt", ".edit"))
    edit(f"{CRATES}/realm_core/src/lib.rt", lambda text: text.replace("pub use step::", """pub use realm::{
    Args, CarriedArgs, Entry, Fault, Item, Lists, Publication, PublishOptions, Realm, RealmConfig,
    Reason, Request, Said, SubscribeOptions, Who, says_with_word,
};
pub use step::""").replace("//! A realm over every schedule:", "//! The broker's core: a realm, which `serve` runs too, and that realm over every schedule:"))


def words_of_a_realm():
    """`IdSource`, which the inbox never uses."""
    path = f"{CRATES}/realm_inbox/src/transport.rt"
    with open(path, encoding="utf-8") as it:
        text = it.read()
    trait = re.search(r"/// A source of words.*?\n}\n\n", text, re.S).group(0)
    head = "//! Where a realm's words come from.\nghost use Rattle.std.specs.Prelude.{◌≡◌, [], ◌∷◌, ◌++◌};\n\n"
    write(f"{CRATES}/realm_actor/src/id_source.rt", head + trait.rstrip("\n") + "\n")
    rest = text.replace(trait, "").replace("//! Where a realm's words come from, and how a transport is shut.\nghost use Rattle.std.specs.Prelude.{◌≡◌, [], ◌∷◌, ◌++◌};\n", "//! How a transport is shut.\n")
    write(path, rest)
    edit(f"{CRATES}/realm_inbox/src/lib.rt", lambda text: text.replace("pub use transport::{IdSource, Shut};", "pub use transport::Shut;"))
    everywhere(lambda text: re.sub(r"Rattle\.realm_inbox\.specs\.(declared|contracts)\.transport\.IdSource", r"Rattle.realm_actor.specs.\1.id_source.IdSource", text))

    def taken_apart(where):
        def change(text):
            found = re.search(r"(?m)^use realm_inbox::\{([^}]*)\};\n", text)
            if not found or "IdSource" not in found.group(1):
                return text
            names = [it.strip() for it in found.group(1).split(",") if it.strip() and it.strip() != "IdSource"]
            inbox = f"use realm_inbox::{{{', '.join(names)}}};\n" if len(names) > 1 else f"use realm_inbox::{names[0]};\n"
            actor = f"use {where}::IdSource;\n"
            text = text.replace(found.group(0), inbox if where.startswith("crate") else actor + inbox)
            if not where.startswith("crate"):
                return text
            return re.sub(r"(?m)^use ", f"{actor}use ", text, count=1)
        return change

    edit(f"{CRATES}/realm_actor/src/lib.rt", lambda text: text.replace("Halt, IdSource,", "Halt,").replace("mod handle;\n", "mod handle;\nmod id_source;\n").replace("pub use outcome::", "pub use id_source::IdSource;\npub use outcome::"))
    everywhere(taken_apart("crate::id_source"), "realm_actor", (".rt",))
    for crate in ("broker_threads", "case_posts", "cases_actor", "cases_settle"):
        everywhere(taken_apart("realm_actor"), crate, (".rt",))


def posters():
    """All three in `connection`."""
    move("broker_threads/src/farewell.rt", "connection/src/farewell_poster.rt")
    drop_lines(f"{CRATES}/broker_threads/src/lib.rt", "mod farewell;")
    edit(f"{CRATES}/broker_threads/src/talk.rt", lambda text: text.replace("use crate::farewell::FarewellPoster;\n", "use connection::FarewellPoster;\n"))
    edit(f"{CRATES}/connection/src/lib.rt", lambda text: text.replace("mod fault;\n", "mod farewell_poster;\nmod fault;\n").replace("pub use fault::Fault;\n", "pub use farewell_poster::FarewellPoster;\npub use fault::Fault;\n"))
    edit(f"{CRATES}/connection/src/farewell_poster.rt", lambda text: text.replace("use session::Said;", "use wamp_messages::Said;"))


def seats():
    """Of connections: who accepts streams gives them."""
    for name in ("src/seats.rt", "src/fault.rt", "specs/Seats.antt", "proofs/seats", "planted/earlier_number_frees_the_seat.edit", "planted/first_seat_is_passed_over.edit", "planted/numbers_of_another_seat_begin_anew.edit", "planted/seat_given_twice.edit"):
        move(f"connection/{name}", f"threaded_server/{name}")
    for line in ("mod fault;", "mod seats;", "pub use fault::Fault;", "pub use seats::Seats;"):
        drop_lines(f"{CRATES}/connection/src/lib.rt", re.escape(line))
    drop_lines(f"{CRATES}/connection/specs/Lib.antt", "pub mod Seats")
    edit(f"{CRATES}/threaded_server/specs/Lib.antt", lambda text: text.rstrip("\n") + "\npub mod Seats\n")
    everywhere(lambda text: re.sub(r"Rattle\.connection\.(specs\.Seats|proofs\.seats|specs\.(?:declared|contracts)\.(?:seats|fault))\b", r"Rattle.threaded_server.\1", text))
    everywhere(lambda text: text.replace("use connection::Seats;", "use crate::seats::Seats;"), "threaded_server", (".rt",))
    move("threaded_server/src/fault.rt", "threaded_server/src/seat_fault.rt")
    everywhere(lambda text: text.replace("Rattle.threaded_server.specs.declared.fault.Fault", "Rattle.threaded_server.specs.declared.seat_fault.SeatFault"))
    edit(f"{CRATES}/threaded_server/src/seats.rt", lambda text: re.sub(r"\bFault\b", "SeatFault", text).replace("crate::fault::", "crate::seat_fault::"))
    edit(f"{CRATES}/threaded_server/src/seat_fault.rt", lambda text: re.sub(r"\bFault\b", "SeatFault", text).replace("Why a call of this crate was refused.", "Why no seat was taken."))
    edit(f"{CRATES}/threaded_server/src/lib.rt", lambda text: text.replace("mod serve;\n", "mod seat_fault;\nmod seats;\nmod serve;\n").replace("pub use serve::", "pub use seat_fault::SeatFault;\npub use seats::Seats;\npub use serve::"))
    edit(f"{CRATES}/broker_server/src/lib.rt", lambda text: text.replace("ReadEnd, Seats, WriteEnd", "ReadEnd, WriteEnd").replace("LogEnd, Parts, SessionEnds,", "LogEnd, Parts, Seats, SessionEnds,"))


OF_REPLAY = {
    "specs": ("Codes", "Laws", "LineReplays", "Lines", "Outcome", "Progress", "Speech", "Transcript"),
    "proofs": ("Digits", "FaultCauses", "FirstSpace", "NumbersAreDecimal", "OneTranscript", "PrintLemmas", "ProgressLemmas", "TranscriptSteps", "UnusedNumbers"),
}
REPLAY_FAULT = """//! Why a replay ends.
use std::alloc::{AllocError, AllocFailed};
use thiserror::Error;

/// Why a replay ended before its input did.
#[derive(Clone, Copy, Debug, Drop, PartialEq, Eq, Error)]
pub enum Fault {
    /// E1: a growth of memory was refused.
    #[error("E1 no memory")]
    NoMemory,
    /// E16: a read failed.
    #[error("E16 read fault")]
    ReadFault,
    /// E17: a write failed.
    #[error("E17 write fault")]
    WriteFault,
    /// E20: a line that is none of a replay. Lines are counted from 1.
    #[error("E20 bad line {0}")]
    BadLine(u64),
    /// E25: 2^32 reads or writes on one stream in one call.
    #[error("E25 too many turns")]
    TooManyTurns,
}

impl From<AllocError> for Fault {
    ghost use Rattle.std.specs.Prelude.{◌≡◌};
    ghost use Rattle.replay.specs.declared.fault.Fault.TheVariants.{NoMemory};

    ghost from_gives = { λ _ fault. fault ≡ NoMemory };

    fn from(_refused: AllocError) -> Fault {
        Fault::NoMemory
    }
}

impl<T: Drop> From<AllocFailed<T>> for Fault {
    ghost use Rattle.std.specs.Prelude.{◌≡◌};
    ghost use Rattle.replay.specs.declared.fault.Fault.TheVariants.{NoMemory};

    ghost from_gives = { λ _ fault. fault ≡ NoMemory };

    fn from(_refused: AllocFailed<T>) -> Fault {
        Fault::NoMemory
    }
}
"""
FROM_REPLAY = """impl From<replay::Fault> for Fault {
    ghost use Rattle.std.specs.Prelude.{◌≡◌};
    ghost use Rattle.command_line.specs.Commands.{fault_of_replay};

    ghost from_gives = { λ of fault. fault ≡ fault_of_replay of };

    fn from(fault: replay::Fault) -> Fault {
        match fault {
            replay::Fault::NoMemory => Fault::NoMemory,
            replay::Fault::ReadFault => Fault::ReadFault,
            replay::Fault::WriteFault => Fault::WriteFault,
            replay::Fault::BadLine(line) => Fault::BadLine(line),
            replay::Fault::TooManyTurns => Fault::TooManyTurns,
        }
    }
}

"""
FAULT_OF_REPLAY = """-- the fault of a program whose replay ended by this one
abbrev pub fault_of_replay : ReplayFault → Fault
fault_of_replay of_replay.NoMemory = NoMemory
fault_of_replay of_replay.ReadFault = ReadFault
fault_of_replay of_replay.WriteFault = WriteFault
fault_of_replay (of_replay.BadLine line) = BadLine line
fault_of_replay of_replay.TooManyTurns = TooManyTurns

-- what a fault tells of the output
abbrev pub write_told : Fault → Told
write_told WriteFault = Failed
write_told _ = Fine

"""


def replay_and_command_line():
    """Two crates of `broker_commands`, each with the faults that it answers."""
    old = f"{CRATES}/broker_commands"
    for edit_of in sorted(glob.glob(f"{old}/planted/*.edit")):
        with open(edit_of, encoding="utf-8") as it:
            text = it.read()
        crate = "replay" if "file: src/transcript/" in text or "file: src/laws" in text else "command_line"
        move(f"broker_commands/planted/{os.path.basename(edit_of)}", f"{crate}/planted/{os.path.basename(edit_of)}")
    for kind, names in OF_REPLAY.items():
        with open(f"{old}/{kind}/Lib.antt", encoding="utf-8") as it:
            modules = [line.split()[-1] for line in it.read().splitlines()]
        for crate in ("replay", "command_line"):
            own = [it for it in modules if (it in names) == (crate == "replay")]
            for name in own:
                move(f"broker_commands/{kind}/{name}.antt", f"{crate}/{kind}/{name}.antt")
            write(f"{CRATES}/{crate}/{kind}/Lib.antt", "".join(f"pub mod {it}\n" for it in own))
    for crate, folder in (("replay", "transcript"), ("command_line", "command_line")):
        for path in sorted(glob.glob(f"{old}/src/{folder}/*.rt")):
            move(path[len(CRATES) + 1:], f"{crate}/src/{os.path.basename(path)}")
        for path in sorted(glob.glob(f"{old}/proofs/{folder}/*")):
            move(path[len(CRATES) + 1:], f"{crate}/proofs/{os.path.basename(path)}")
    move("broker_commands/src/laws.rt", "replay/src/laws.rt")
    move("broker_commands/proofs/laws", "replay/proofs/laws")
    move("broker_commands/src/fault.rt", "command_line/src/fault.rt")
    shutil.rmtree(old)
    write(f"{CRATES}/replay/src/fault.rt", REPLAY_FAULT)
    write(f"{CRATES}/replay/src/lib.rt", """//! `replay`: the transcript of lines, in one realm and one thread.
//!
//! It stands on `realm_core`, and on `broker_config` for what a broker is run with; it needs no handle. Contracts say what a transcript is
//! of the lines that were read, which fault is told, and what stands written then.
#![tactic(auto)]

mod fault;
pub mod laws;
mod line;
mod line_replay;
mod print;
mod replay_input;
mod run;
mod speech;

pub use fault::Fault;
pub use run::replay;
""")
    write(f"{CRATES}/command_line/src/lib.rt", """//! The words of the command line, and what is told of a fault.
//!
//! It stands on `clap`, on `broker_config` for what a broker is run with, on `client_commands` for what a client is asked for, and on `replay`
//! for its faults; it needs no handle. Contracts say what a command line asks for, which fault is told and how.
#![tactic(auto)]

mod client_grammar;
mod clients;
mod command;
mod diagnostics;
mod fault;
mod grammar;
mod grants;
mod printable;
mod refusal;
mod version;

pub use command::{Command, explain, help, read_command};
pub use diagnostics::{report, report_failure};
pub use fault::Fault;
pub use grants::read_grants;
pub use printable::shown_line;
""")

    def paths(own):
        def change(text):
            text = re.sub(r"Rattle\.broker_commands\.specs\.(declared|contracts)\.transcript\.", r"Rattle.replay.specs.\1.", text)
            text = re.sub(r"Rattle\.broker_commands\.specs\.(declared|contracts)\.command_line\.", r"Rattle.command_line.specs.\1.", text)
            text = text.replace("Rattle.broker_commands.proofs.transcript.", "Rattle.replay.proofs.").replace("Rattle.broker_commands.proofs.command_line.", "Rattle.command_line.proofs.")
            text = text.replace("Rattle.broker_commands.proofs.laws.", "Rattle.replay.proofs.laws.")
            for kind, names in OF_REPLAY.items():
                text = re.sub(rf"Rattle\.broker_commands\.{kind}\.({'|'.join(names)})\b", rf"Rattle.replay.{kind}.\1", text)
            text = re.sub(r"Rattle\.broker_commands\.specs\.(declared|contracts)\.fault\b", rf"Rattle.{own}.specs.\1.fault", text)
            text = text.replace("Rattle.broker_commands.", "Rattle.command_line.")
            text = re.sub(r"crate::(transcript|command_line)::", "crate::", text)
            return re.sub(r"(?m)^file: src/(transcript|command_line)/", "file: src/", text)
        return change

    everywhere(paths("replay"), "replay")
    everywhere(paths("command_line"))
    everywhere(lambda text: re.sub(r"crates/broker_commands/src/transcript/", "crates/replay/src/", text).replace("crates/broker_commands/src/command_line/", "crates/command_line/src/"), endings=(".edit",))
    gone = "Usage|ListenFault|ConnectFault|Refused|ConnectionFault"
    for name in ("specs/Outcome", "proofs/FaultCauses"):
        edit(f"{CRATES}/replay/{name}.antt", lambda text: re.sub(rf"(?m)^(HasCause [\w ]+|weaker|no_read_fault|no_write_fault) ({gone})\b.*\n", "", text).replace(", Usage,", ",").replace(", ListenFault, ConnectFault, Refused, ConnectionFault}", "}"))
    edit(f"{CRATES}/replay/specs/Outcome.antt", lambda text: text.replace("; it is never `Usage`, nor a fault of listening or of a client", ""))
    edit(f"{CRATES}/command_line/src/fault.rt", lambda text: text.replace("impl From<client_commands::Fault> for Fault {", FROM_REPLAY + "impl From<client_commands::Fault> for Fault {"))
    edit(f"{CRATES}/command_line/specs/Commands.antt", lambda text: text.replace("-- the fault of a program whose client ended by this one\n", FAULT_OF_REPLAY + "-- the fault of a program whose client ended by this one\n")
         .replace("use Rattle.client_commands.specs.declared.fault.Fault.{Fault as ClientFault}\n", "use Rattle.rawsocket.specs.Steps.{Told, Fine, Failed}\nuse Rattle.replay.specs.declared.fault.Fault.{Fault as ReplayFault}\nuse Rattle.replay.specs.declared.fault.Fault.TheVariants as of_replay\nuse Rattle.client_commands.specs.declared.fault.Fault.{Fault as ClientFault}\n"))
    edit(f"{CRATES}/wampd/src/main.rt", lambda text: text.replace("ghost use Rattle.replay.specs.Outcome.{write_told};\n", "").replace("{IsServable, IsWritten, fault_line, status_of}", "{IsServable, IsWritten, fault_line, status_of, write_told}")
         .replace("Failure::of_replay(alloc, fault)", "Failure::of_replay(alloc, Fault::from(fault))").replace("those of `broker_commands`", "those of `replay` and `command_line`"))
    edit(f"{CRATES}/broker_server/src/lib.rt", lambda text: re.sub(r"pub use broker_commands::\{[^}]*\};\n", "", text).replace("`replay` and the command line, which `broker_commands` makes, and", "`replay`, the command line, which `command_line` reads, and")
         .replace("pub use broker_config::{Config, Ids};\n", "pub use broker_config::{Config, Ids};\npub use command_line::{Command, Fault, explain, help, read_command, read_grants, report, report_failure, shown_line};\n")
         .replace("pub use threaded_server::", "pub use replay::{Fault as ReplayFault, laws, replay};\npub use threaded_server::"))
    for crate in ("cases_replay", "broker_server"):
        everywhere(lambda text: text.replace("Cases of `broker_commands`: of `replay`, of", "Cases of `replay`, of"), crate, (".rt",))
    edit(f"{CRATES}/cases_replay/src/commands.rt", lambda text: text.replace("use broker_commands::", "use command_line::"))
    edit(f"{CRATES}/cases_replay/src/script.rt", lambda text: text.replace("use broker_commands::{Fault, read_grants, replay};", "use command_line::{Fault, read_grants};\nuse replay::replay;"))
    for name in ("outcome", "case"):
        edit(f"{CRATES}/cases_replay/src/{name}.rt", lambda text: text.replace("use broker_commands::Fault;", "use command_line::Fault;"))


def commands_need(text):
    text = re.sub(r"(?m)^broker_commands:.*\n", "replay: wamp_ids message_tree json_codec rawsocket session wamp_messages realm realm_core broker_config itoa thiserror\ncommand_line: wamp_ids message_tree json_codec rawsocket session client_commands broker_config replay itoa clap thiserror\n", text)
    text = re.sub(r"(?m)^(broker_server:.*) broker_commands$", r"\1 replay command_line", text)
    text = re.sub(r"(?m)^(wampd.*) broker_commands ", r"\1 replay command_line ", text)
    return re.sub(r"(?m)^(cases_replay:.*) broker_commands$", r"\1 replay command_line", text)


def needs_of(crate, *more, less=()):
    def change(text):
        found = re.search(rf"(?m)^{crate}( [^:\n]*)?:(.*)$", text)
        words = [it for it in found.group(2).split() if it not in less] + [it for it in more if it not in found.group(2).split()]
        return text.replace(found.group(0), f"{crate}{found.group(1) or ''}: {' '.join(words)}")
    edit(f"{TREE}/crates.txt", change)


messages()
core()
words_of_a_realm()
posters()
seats()
replay_and_command_line()
edit(f"{TREE}/crates.txt", commands_need)
edit(f"{TREE}/crates.txt", needs)
needs_of("connection", less=("thiserror",))
needs_of("threaded_server", "thiserror")
needs_of("case_posts", "realm_actor")
