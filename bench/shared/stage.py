"""A provider and a network as values of a measuring program's own: calls over disks in memory. A program takes DESK as
src/desk.rt, and `network(NAME)` among its files, where NAME is its own name."""

DESK_USES = ["pec_types", "pec_outside", "pec_directory", "pec_screen", "pec_seal", "pec_trade", "pec_letters", "pec_records", "pec_provider"]
NET_USES = DESK_USES + ["pec_link", "pec_network"]

DESK = r'''//! One provider over a disk in memory, and where it is at home.

ghost use Rattle.std.specs.Prelude.{◌<◌, ◌≤◌, length};
ghost use Rattle.pec_directory.specs.Directory.{providers_of};
ghost use Rattle.pec_letters.specs.Fitting.{Fits};
ghost use Rattle.pec_records.specs.Entry.{longest_message, most_addresses};

use pec_directory::Directory;
use pec_outside::MemDisk;
use pec_provider::{
    CreateFault, Event, House, Mark, Provider, ProviderFault, ReopenFault, Submitted,
};
use pec_screen::NoScreens;
use pec_seal::{HmacSealer, Sealer};
use pec_trade::sealer_of;
use pec_types::{Address, BookLine, Frame, ItemLine, Moment, Steps};
use std::alloc::Global;
use std::marker::Model;

/// Where the providers of a directory are at home.
pub struct Home {
    directory: Directory,
    sealer: HmacSealer,
    ghost fits: { Fits (⟦<HmacSealer as Sealer>⟧.seals sealer) (providers_of directory) },
}

impl Drop for Home {
    fn drop(self) {
        let Home {
            directory: _,
            sealer: _,
        } = self;
    }
}

impl Home {
    /// The home of a directory that is given as text; none where it is refused or memory runs out.
    pub fn of(alloc: Global, text: &str) -> Option<Home> {
        let directory = Directory::read(alloc, text).ok()?;
        let sealer = sealer_of(alloc, &directory).ok()?;
        Some(Home { directory, sealer })
    }

    pub fn directory(&self) -> &Directory {
        &self.directory
    }

    pub fn sealer(&self) -> &HmacSealer {
        &self.sealer
    }
}

/// One provider, which answers as the calls of `Provider` do.
pub struct Desk {
    alloc: Global,
    home: Home,
    me: u32,
    provider: Provider<MemDisk>,
}

impl Model for Desk {
    ghost use Rattle.pec_outside.specs.MemoryDisk.{DiskState};
    ghost use Rattle.pec_provider.specs.Provider.{ProviderState, Runs};

    ghost Value = { ProviderState DiskState };

    ghost view = { λ desk. desk.provider };

    ghost invariant = { λ desk. Runs desk.home.directory (⟦<HmacSealer as Sealer>⟧.seals desk.home.sealer) desk.me
        desk.provider };
}

impl Drop for Desk {
    fn drop(self) {
        let Desk {
            alloc: _,
            home: _,
            me: _,
            provider: _,
        } = self;
    }
}

impl Desk {
    /// A provider on an empty disk, of which these calls fail, numbered from 0; or why no journal was made. None where
    /// there is no such provider or memory runs out.
    pub fn made(
        alloc: Global,
        home: Home,
        me: u32,
        failing: &[u64],
    ) -> Option<Result<Desk, CreateFault>> {
        let disk = MemDisk::new(alloc, Vec::from_slice(alloc, failing).ok()?);
        if me >= home.directory.count() {
            return None;
        }
        let house = House {
            directory: &home.directory,
            sealer: &home.sealer,
            me,
        };
        match Provider::create(alloc, &house, disk) {
            Ok(provider) => Some(Ok(Desk {
                alloc,
                home,
                me,
                provider,
            })),
            Err((fault, _)) => Some(Err(fault)),
        }
    }

    /// The provider whose journal is on a disk; or why it isn't opened. None where there is no such provider.
    pub fn opened(
        alloc: Global,
        home: Home,
        me: u32,
        disk: MemDisk,
    ) -> Option<Result<Desk, ReopenFault>> {
        if me >= home.directory.count() {
            return None;
        }
        let house = House {
            directory: &home.directory,
            sealer: &home.sealer,
            me,
        };
        match Provider::reopen(alloc, &house, disk) {
            Ok(provider) => Some(Ok(Desk {
                alloc,
                home,
                me,
                provider,
            })),
            Err((fault, _)) => Some(Err(fault)),
        }
    }

    /// The provider opened again over its disk, and whether an entry of it was interrupted; none where it isn't opened.
    pub fn reopened(self) -> Option<(Desk, bool)> {
        let Desk {
            alloc,
            home,
            me,
            provider,
        } = self;
        let (disk, interrupted) = provider.into_parts();
        let was_interrupted = interrupted.is_some();
        match Desk::opened(alloc, home, me, disk)? {
            Ok(desk) => Some((desk, was_interrupted)),
            Err(_) => None,
        }
    }

    pub fn submit(
        &mut self,
        moment: Moment,
        sender: &Address,
        path: &[Address],
        message: &[u8],
    ) -> Result<Submitted, ProviderFault>
        requires path { (0 < length path.now) × (length path.now ≤ most_addresses) }
        requires message { length message.now ≤ longest_message }
    {
        let home = &self.home;
        let house = House {
            directory: &home.directory,
            sealer: &home.sealer,
            me: self.me,
        };
        let mut none = NoScreens;
        self.provider.submit(self.alloc, &house, moment, sender, path, message, &mut none)
    }

    pub fn tick(&mut self, moment: Moment) -> Result<Vec<Mark>, ProviderFault> {
        let home = &self.home;
        let house = House {
            directory: &home.directory,
            sealer: &home.sealer,
            me: self.me,
        };
        self.provider.tick(self.alloc, &house, moment, &mut Steps::new())
    }

    pub fn arrive(&mut self, moment: Moment, frame: &[u8]) -> Result<Event, ProviderFault> {
        let home = &self.home;
        let house = House {
            directory: &home.directory,
            sealer: &home.sealer,
            me: self.me,
        };
        self.provider.arrive(self.alloc, &house, moment, frame)
    }

    pub fn decide_next(&mut self, moment: Moment) -> Result<Option<Event>, ProviderFault> {
        let home = &self.home;
        let house = House {
            directory: &home.directory,
            sealer: &home.sealer,
            me: self.me,
        };
        self.provider.decide_next(self.alloc, &house, moment)
    }

    pub fn put_due(&mut self, to: u32, room: usize) -> Result<Vec<Frame>, ProviderFault> {
        let home = &self.home;
        let house = House {
            directory: &home.directory,
            sealer: &home.sealer,
            me: self.me,
        };
        self.provider.put_due(self.alloc, &house, to, room)
    }

    pub fn end_turn(&mut self) {
        self.provider.end_turn();
    }

    pub fn book(&self, account: &Address) -> Result<Vec<BookLine>, ProviderFault> {
        let home = &self.home;
        let house = House {
            directory: &home.directory,
            sealer: &home.sealer,
            me: self.me,
        };
        self.provider.book(self.alloc, &house, account)
    }

    pub fn mailbox(&self, account: &Address) -> Result<Vec<ItemLine>, ProviderFault> {
        let home = &self.home;
        let house = House {
            directory: &home.directory,
            sealer: &home.sealer,
            me: self.me,
        };
        self.provider.mailbox(self.alloc, &house, account)
    }

    pub fn item(&mut self, account: &Address, place: u32) -> Result<Vec<u8>, ProviderFault> {
        let home = &self.home;
        let house = House {
            directory: &home.directory,
            sealer: &home.sealer,
            me: self.me,
        };
        self.provider.item(self.alloc, &house, account, place)
    }

    pub fn figures(&self) -> Figures {
        Figures {
            entries: self.provider.entries(),
            last: self.provider.last(),
            messages: self.provider.messages(),
            fill: self.provider.fill(),
            is_down: self.provider.is_down(),
        }
    }
}

/// The figures of a provider.
#[derive(Clone, Copy, Debug, PartialEq, Eq)]
pub struct Figures {
    pub entries: u64,
    pub last: Moment,
    pub messages: u64,
    pub fill: u64,
    pub is_down: bool,
}
'''

NET = r'''//! A network of two providers over disks in memory, and the depot of its disks.

ghost use Rattle.std.specs.Prelude.{◌≡◌, ◌<◌, ◌≤◌, length, IfOk};
ghost use Rattle.pec_directory.specs.Directory.{providers_of};
ghost use Rattle.pec_letters.specs.Fitting.{Fits};
ghost use Rattle.pec_records.specs.Entry.{longest_message, most_addresses};

use crate::calls::{crash, restart, submit, tick};
use pec_directory::Directory;
use pec_link::LinkFault;
use pec_network::{Form, Network, RestartFault, StartFault};
use pec_outside::{MemDepot, MemDisk};
use pec_provider::{Mark, ProviderFault, Submitted};
use pec_screen::NoScreens;
use pec_seal::{HmacSealer, Sealer};
use pec_trade::sealer_of;
use pec_types::{Address, BookLine, Frame, ItemLine, Moment, NoMemory, Turn};
use std::alloc::Global;

/// A network of at least two providers, which answers as the calls of `Network` do.
pub struct Net {
    alloc: Global,
    network: Network<MemDisk, HmacSealer, NoScreens>,
    depot: MemDepot,
    ghost fits: { Fits (⟦<HmacSealer as Sealer>⟧.seals network.sealer) (providers_of network.kept) },
    ghost two: { 2 ≤ length network.kept },
}

impl Drop for Net {
    fn drop(self) {
        let Net {
            alloc: _,
            network: _,
            depot: _,
        } = self;
    }
}

/// A network that begins over a depot, with a directory that is given as text; or why it doesn't begin, and the depot.
/// None where the directory is refused or has fewer than two providers, or memory runs out.
pub fn begun(
    alloc: Global,
    text: &str,
    form: Form,
    mut depot: MemDepot,
) -> Option<Result<Net, (StartFault, MemDepot)>> {
    let directory = Directory::read(alloc, text).ok()?;
    let sealer = sealer_of(alloc, &directory).ok()?;
    if directory.count() < 2 {
        return None;
    }
    match of_form(alloc, form, directory, sealer, &mut depot) {
        Ok(network) => Some(Ok(Net {
            alloc,
            network,
            depot,
        })),
        Err(fault) => Some(Err((fault, depot))),
    }
}

/// A network whose journals are made, or opened.
fn of_form(
    alloc: Global,
    form: Form,
    directory: Directory,
    sealer: HmacSealer,
    depot: &mut MemDepot,
) -> Result<Network<MemDisk, HmacSealer, NoScreens>, StartFault>
    ensures { IfOk result (λ network. (network.kept ≡ directory) × (network.sealer ≡ sealer)) }
{
    match form {
        Form::Make => Network::create(alloc, directory, sealer, Vec::new(alloc), depot),
        Form::Open => Network::resume(alloc, directory, sealer, Vec::new(alloc), depot),
    }
}

/// Calls by the numbers of providers, 0 and 1.
impl Net {
    /// Ends the network. Its depot has all disks again.
    pub fn closed(self) -> MemDepot {
        let Net {
            alloc: _,
            network,
            mut depot,
        } = self;
        network.close(&mut depot);
        depot
    }

    pub fn submit(
        &mut self,
        provider: u32,
        moment: Moment,
        sender: &Address,
        path: &[Address],
        message: &[u8],
    ) -> Result<Submitted, ProviderFault>
        requires provider { provider < 2 }
        requires path { (0 < length path.now) × (length path.now ≤ most_addresses) }
        requires message { length message.now ≤ longest_message }
    {
        submit(
            self.alloc,
            &mut self.network,
            provider,
            moment,
            sender,
            path,
            message,
        )
    }

    pub fn tick(&mut self, provider: u32, moment: Moment) -> Result<Vec<Mark>, ProviderFault>
        requires { provider < 2 }
    {
        tick(self.alloc, &mut self.network, provider, moment)
    }

    pub fn round(&mut self, moment: Moment) -> Result<Vec<Turn>, NoMemory> {
        self.network.round(self.alloc, moment)
    }

    pub fn lose(&mut self, from: u32, to: u32, place: usize) -> Result<(), LinkFault>
        requires from { from < 2 }
        requires to { to < 2 }
    {
        self.network.lose(from, to, place)
    }

    pub fn repeat(&mut self, from: u32, to: u32, place: usize) -> Result<(), LinkFault>
        requires from { from < 2 }
        requires to { to < 2 }
    {
        self.network.repeat(self.alloc, from, to, place)
    }

    pub fn swap(&mut self, from: u32, to: u32, place: usize) -> Result<(), LinkFault>
        requires from { from < 2 }
        requires to { to < 2 }
    {
        self.network.swap(from, to, place)
    }

    pub fn inject(&mut self, from: u32, to: u32, frame: Frame) -> Result<(), LinkFault>
        requires from { from < 2 }
        requires to { to < 2 }
    {
        self.network.inject(from, to, frame)
    }

    pub fn crash(&mut self, provider: u32)
        requires { provider < 2 }
    {
        crash(&mut self.network, provider, &mut self.depot);
    }

    pub fn restart(&mut self, provider: u32) -> Result<u64, RestartFault>
        requires { provider < 2 }
    {
        restart(self.alloc, &mut self.network, provider)
    }

    pub fn book(&self, account: &Address) -> Result<Vec<BookLine>, ProviderFault> {
        self.network.book(self.alloc, account)
    }

    pub fn mailbox(&self, account: &Address) -> Result<Vec<ItemLine>, ProviderFault> {
        self.network.mailbox(self.alloc, account)
    }

    pub fn show(&mut self, account: &Address, place: u32) -> Result<Vec<u8>, ProviderFault> {
        self.network.show(self.alloc, account, place)
    }

    pub fn entries(&self, provider: u32) -> u64
        requires { provider < 2 }
    {
        self.network.entries(provider)
    }
}
'''

CALLS = r'''//! Calls of one provider of a network, by which neither the directory nor the sealer changes.

ghost use Rattle.std.specs.Prelude.{◌≡◌, ◌<◌, ◌≤◌, length};
ghost use Rattle.pec_directory.specs.Directory.{providers_of};
ghost use Rattle.pec_letters.specs.Fitting.{Fits};
ghost use Rattle.pec_records.specs.Entry.{longest_message, most_addresses};

use pec_network::{Network, RestartFault};
use pec_outside::{MemDepot, MemDisk};
use pec_provider::{ProviderFault, Submitted};
use pec_screen::NoScreens;
use pec_seal::{HmacSealer, Sealer};
use pec_types::{Address, Mark, Moment, Steps};
use std::alloc::Global;

pub(crate) fn submit(
    alloc: Global,
    network: &mut Network<MemDisk, HmacSealer, NoScreens>,
    provider: u32,
    moment: Moment,
    sender: &Address,
    path: &[Address],
    message: &[u8],
) -> Result<Submitted, ProviderFault>
    requires provider { provider < length network.old.kept }
    requires fits { Fits (⟦<HmacSealer as Sealer>⟧.seals network.old.sealer) (providers_of network.old.kept) }
    requires path { (0 < length path.now) × (length path.now ≤ most_addresses) }
    requires message { length message.now ≤ longest_message }
    ensures { (network.new.kept ≡ network.old.kept) × (network.new.sealer ≡ network.old.sealer) }
{
    network.directory();
    network.submit(alloc, provider, moment, sender, path, message)
}

pub(crate) fn tick(
    alloc: Global,
    network: &mut Network<MemDisk, HmacSealer, NoScreens>,
    provider: u32,
    moment: Moment,
) -> Result<Vec<Mark>, ProviderFault>
    requires { provider < length network.old.kept }
    ensures { (network.new.kept ≡ network.old.kept) × (network.new.sealer ≡ network.old.sealer) }
{
    network.directory();
    network.tick(alloc, provider, moment, &mut Steps::new())
}

pub(crate) fn crash(network: &mut Network<MemDisk, HmacSealer, NoScreens>, provider: u32, depot: &mut MemDepot)
    requires { provider < length network.old.kept }
    ensures { (network.new.kept ≡ network.old.kept) × (network.new.sealer ≡ network.old.sealer) }
{
    network.directory();
    network.crash(provider, depot);
}

pub(crate) fn restart(
    alloc: Global,
    network: &mut Network<MemDisk, HmacSealer, NoScreens>,
    provider: u32,
) -> Result<u64, RestartFault>
    requires { provider < length network.old.kept }
    ensures { (network.new.kept ≡ network.old.kept) × (network.new.sealer ≡ network.old.sealer) }
{
    network.directory();
    network.restart(alloc, provider)
}
'''

PROOFS = {
    "proofs/Lib.antt": r'''mod SameLemmas
''',
    "proofs/SameLemmas.antt": r'''-- Where nothing but one provider is another, neither the directory nor the sealer is.
use Rattle.std.proofs.Common.{◌≡◌, ℕ, ◌<◌, inl, inr, length, ap, arith}
use Rattle.std.proofs.lemmas.Option.{slice_get_cases}
use Rattle.pec_provider.specs.Provider.{ProviderState}
use Rattle.pec_network.specs.Changing.{ChangesOnly}
use Rattle.pec_network.specs.Network.{NetworkState}

pub same_home : {D S : Type 0} (old new : NetworkState D S) (number : ℕ) → ChangesOnly number old new
    → number < length old.providers → (new.kept ≡ old.kept) × (new.sealer ≡ old.sealer)
same_home {D} {S} old new number only within =
    let some : ProviderState D = elim (slice_get_cases old.providers number).1 [
      | inl there ↦ there.0
      | inr past ↦ absurd (omega (arith, within, past.0))
    ] in
    (ap (λ (n : NetworkState D S). n.kept) (only some), ap (λ (n : NetworkState D S). n.sealer) (only some))
''',
    "proofs/calls/tick/Answers.antt": r'''use Rattle.std.proofs.Common.{◌<◌, length, arith}
use Rattle.pec_network_tests.proofs.SameLemmas.{same_home}
use Rattle.pec_network_tests.proofs.calls.tick.Goals as goal

pub returns : goal.returns
returns c =
    let network = c.args.network.now in
    let within : c.args.provider < length network.providers = omega (arith, c.directory.ensures.whole.count, c.requires) in
    same_home network c.tick.new.self c.args.provider c.tick.ensures.others within
''',
    "proofs/calls/crash/Answers.antt": r'''use Rattle.std.proofs.Common.{◌<◌, length, arith}
use Rattle.pec_network_tests.proofs.SameLemmas.{same_home}
use Rattle.pec_network_tests.proofs.calls.crash.Goals as goal

pub returns : goal.returns
returns c =
    let network = c.args.network.now in
    let within : c.args.provider < length network.providers = omega (arith, c.directory.ensures.whole.count, c.requires) in
    same_home network c.crash.new.self c.args.provider c.crash.ensures.others within
''',
    "proofs/calls/submit/Answers.antt": r'''use Rattle.std.proofs.Common.{◌<◌, length, arith}
use Rattle.pec_network_tests.proofs.SameLemmas.{same_home}
use Rattle.pec_network_tests.proofs.calls.submit.Goals as goal

pub returns : goal.returns
returns c =
    let network = c.args.network.now in
    let within : c.args.provider < length network.providers = omega (arith, c.directory.ensures.whole.count, c.requires.provider) in
    same_home network c.submit.new.self c.args.provider c.submit.ensures.others within
''',
    "proofs/calls/restart/Answers.antt": r'''use Rattle.std.proofs.Common.{◌<◌, length, arith}
use Rattle.pec_network_tests.proofs.SameLemmas.{same_home}
use Rattle.pec_network_tests.proofs.calls.restart.Goals as goal

pub returns : goal.returns
returns c =
    let network = c.args.network.now in
    let within : c.args.provider < length network.providers = omega (arith, c.directory.ensures.whole.count, c.requires) in
    same_home network c.restart.new.self c.args.provider c.restart.ensures.others within
''',
}


def network(name):
    """The files of a network in a program of this name."""
    files = {"src/net.rt": NET, "src/calls.rt": CALLS}
    files.update({file: text.replace("pec_network_tests", name) for file, text in PROOFS.items()})
    return files
