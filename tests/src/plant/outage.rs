//! Stations that save, go down and come back.

use super::disk::{cut, Left};
use super::event::What;
use super::hazard::{Duty, Hazard};
use super::motion::{own_lines, Plant};

/// The chance that a save is cut, where saves are.
const CUT: usize = 20;
/// The chance that what was saved is backed up, where there are backups, and that a station
/// which went down comes back from its backup.
const BACK_UP: usize = 20;
const RESTORE: usize = 50;
/// The chance of a clone at each time, until there is one.
const CLONE: usize = 4;

impl Plant<'_> {
    /// Saves; whether the station is still up.
    pub fn save(&mut self, at: usize) -> Result<bool, String> {
        if self.duty.hazard() == Hazard::TornSave && self.random.chance(CUT) {
            self.cut_save(at)?;
            return Ok(false);
        }
        self.stations[at].save();
        self.note(What::Saved(at));
        if self.duty.hazard() == Hazard::OldBackup && self.random.chance(BACK_UP) {
            self.stations[at].back_up();
            self.note(What::BackedUp(at));
        }
        Ok(true)
    }

    /// The station goes down in the middle of a save, and begins again. A host that keeps the
    /// old image until the new one is whole has one of the two.
    fn cut_save(&mut self, at: usize) -> Result<(), String> {
        let station = &mut self.stations[at];
        let left = match self.duty {
            Duty::Neglected(_) => {
                let written = cut(&mut self.random);
                station.save_in_place(self.calls, &written)?
            }
            Duty::Kept(_) if self.random.chance(50) => Left::Old,
            Duty::Kept(_) => {
                station.save();
                Left::New
            }
        };
        self.note(What::Cut(at, left));
        self.restart(at);
        Ok(())
    }

    fn restart(&mut self, at: usize) {
        self.stations[at].restart();
        self.note(What::Restarted(at));
        self.look(at);
    }

    /// By chance, the station begins again from what it saved.
    pub fn crashes(&mut self, at: usize) -> bool {
        let crashes = self.random.chance(self.crash);
        if crashes {
            self.restart(at);
        }
        crashes
    }

    /// A station went down and comes back, from what it saved or from its backup.
    pub fn come_back(&mut self, at: usize) {
        if self.duty.hazard() != Hazard::OldBackup || !self.random.chance(RESTORE) {
            return self.restart(at);
        }
        let station = &mut self.stations[at];
        self.given_up.extend(station.restore());
        if self.duty.is_kept() {
            let count = station.lines.len() as u8;
            station.lines.iter_mut().for_each(|line| line[9] += count);
        }
        self.note(What::Restored(at));
        self.look(at);
    }

    /// Some station is cloned, if none was.
    pub fn clone_once(&mut self) {
        let due = self.duty.hazard() == Hazard::Cloning && !self.cloned;
        if !due || !self.random.chance(CLONE) {
            return;
        }
        let (from, to) = (self.random.below(self.stations.len()), self.stations.len());
        let lines = self.stations[from].lines.clone();
        let lines = match self.duty {
            Duty::Kept(_) => own_lines(&mut self.random, to, lines.len() as u8),
            Duty::Neglected(_) => lines,
        };
        self.stations.push(self.stations[from].cloned(lines));
        self.network.grow();
        self.cloned = true;
        self.note(What::Cloned(from, to));
        self.look(to);
    }
}
