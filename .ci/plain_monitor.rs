//! A plain monitor, beside which `.ci/speed` measures armus_monitor: the same lines and the same messages, and nothing is proved of it. It is slower only where
//! that keeps it short. Who stands in the greatest closed set is known of each; a line lets it grow or shrink from those whom the line is about.
use std::collections::{BTreeSet, HashMap, HashSet};
use std::io::{self, BufRead, Write};

const MOST_LISTED: usize = 65_536;
const MOST_MEMBERSHIPS: usize = 1_048_576;

/// Tasks and wildcards, and phasers, by their places in vectors, which are used again.
type Id = usize;

enum Condition {
    Running,
    Waiting(Id, u32),
    Ended,
    Any,
    /// The names of its line, how many tasks it has, and those of them that have not ended.
    Of(Vec<u8>, usize, Vec<Id>),
}
use Condition::*;

struct Participant {
    number: u64,
    name: Vec<u8>,
    phases: Vec<(Id, u32)>,
    condition: Condition,
    place: Option<Vec<u8>>,
    /// Whether it stands in the greatest closed set.
    inside: bool,
    /// The wildcards that it may play by name.
    plays: Vec<Id>,
}

impl Participant {
    fn is_live(&self) -> bool {
        matches!(self.condition, Running | Waiting(..))
    }

    fn waits(&self) -> bool {
        matches!(self.condition, Waiting(..))
    }

    fn is_wildcard(&self) -> bool {
        matches!(self.condition, Any | Of(..))
    }

    fn phase_on(&self, p: Id) -> Option<u32> {
        self.phases.iter().find(|(q, _)| *q == p).map(|(_, m)| *m)
    }
}

#[derive(Default)]
struct Phaser {
    name: Vec<u8>,
    members: HashSet<Id>,
    /// Its members that do not run, by phase.
    blocked: BTreeSet<(u32, Id)>,
    /// Who waits for a phase of it, by phase.
    waiters: BTreeSet<(u32, Id)>,
}

enum Said<'a> {
    Join(&'a [u8], u32),
    Arrive(&'a [u8]),
    Leave(&'a [u8]),
    Wait(&'a [u8], u32),
    Go,
    End,
    At,
}

enum Reason {
    Circle(Vec<Id>),
    Ended(Id),
    Stuck(Id),
    Missing,
}

fn is_word(word: &[u8]) -> bool {
    (1..=64).contains(&word.len()) && word.iter().all(|b| (33..=126).contains(b))
}

fn participant_name(word: &[u8]) -> Option<&[u8]> {
    (is_word(word) && word[0] != b'@' && word[0] != b'#').then_some(word)
}

fn phaser_name(word: &[u8]) -> Option<&[u8]> {
    (is_word(word) && word[0] != b'@').then_some(word)
}

fn number(word: &[u8]) -> Option<u32> {
    let digits = word.iter().all(u8::is_ascii_digit) && (word.len() == 1 || word.first() != Some(&b'0'));
    digits.then(|| std::str::from_utf8(word).ok()?.parse().ok()).flatten()
}

fn text(bytes: &[u8]) -> &str {
    std::str::from_utf8(bytes).unwrap()
}

/// Names, of which three are shown.
fn names<'a>(all: impl ExactSizeIterator<Item = &'a [u8]>) -> String {
    let count = all.len();
    let shown: Vec<&str> = all.take(3).map(text).collect();
    shown.join(", ") + &if count > 3 { format!(" and {} more", count - 3) } else { String::new() }
}

#[derive(Default)]
struct Monitor {
    guards: bool,
    list: Vec<Participant>,
    free: Vec<Id>,
    there: HashMap<Vec<u8>, Id>,
    phasers: Vec<Phaser>,
    free_phasers: Vec<Id>,
    phaser_ids: HashMap<Vec<u8>, Id>,
    anys: Vec<Id>,
    named: u64,
    memberships: usize,
    live: usize,
    live_inside: usize,
    running: usize,
    /// Who was freed by this line, and who has come into the set by it.
    freed: Vec<(u64, Vec<u8>)>,
    newly: Vec<Id>,
    told: bool,
    out: Vec<u8>,
}

impl Monitor {
    fn listed(&self) -> usize {
        self.list.len() - self.free.len()
    }

    /// All of the list, in its order.
    fn all(&self) -> Vec<Id> {
        let free: HashSet<Id> = self.free.iter().copied().collect();
        let mut all: Vec<Id> = (0..self.list.len()).filter(|id| !free.contains(id)).collect();
        all.sort_by_key(|id| self.list[*id].number);
        all
    }

    fn phaser(&mut self, name: &[u8]) -> Id {
        if let Some(p) = self.phaser_ids.get(name) {
            return *p;
        }
        let phaser = Phaser { name: name.to_vec(), ..Default::default() };
        let p = match self.free_phasers.pop() {
            Some(p) => {
                self.phasers[p] = phaser;
                p
            }
            None => {
                self.phasers.push(phaser);
                self.phasers.len() - 1
            }
        };
        self.phaser_ids.insert(name.to_vec(), p);
        p
    }

    fn forget_phaser(&mut self, p: Id) {
        if self.phasers[p].members.is_empty() && self.phasers[p].waiters.is_empty() {
            self.phaser_ids.remove(&self.phasers[p].name);
            self.phasers[p] = Phaser::default();
            self.free_phasers.push(p);
        }
    }

    fn add(&mut self, name: &[u8], condition: Condition) -> Id {
        let it = Participant { number: self.named, name: name.to_vec(), phases: vec![], condition, place: None, inside: false, plays: vec![] };
        self.named += 1;
        let id = match self.free.pop() {
            Some(id) => {
                self.list[id] = it;
                id
            }
            None => {
                self.list.push(it);
                self.list.len() - 1
            }
        };
        self.there.insert(name.to_vec(), id);
        id
    }

    /// Takes somebody out of the list who is a member of nothing.
    fn remove(&mut self, id: Id) {
        self.list[id].name = vec![];
        self.list[id].place = None;
        self.list[id].condition = Ended;
        self.free.push(id);
    }

    fn set_inside(&mut self, id: Id, inside: bool) {
        if self.list[id].is_live() && self.list[id].inside != inside {
            self.live_inside = if inside { self.live_inside + 1 } else { self.live_inside - 1 };
        }
        self.list[id].inside = inside;
    }

    fn set_blocked(&mut self, id: Id, blocked: bool) {
        for (p, m) in &self.list[id].phases {
            if blocked {
                self.phasers[*p].blocked.insert((*m, id));
            } else {
                self.phasers[*p].blocked.remove(&(*m, id));
            }
        }
    }

    /// Who waits for a phase of p above m.
    fn waiters_above(&self, p: Id, m: u32) -> impl Iterator<Item = Id> + '_ {
        self.phasers[p].waiters.range((m, Id::MAX)..).map(|(_, id)| *id)
    }

    fn blocked_below(&self, p: Id, n: u32) -> impl Iterator<Item = Id> + '_ {
        self.phasers[p].blocked.range(..(n, 0)).map(|(_, id)| *id)
    }

    /// Who may come into the set, or out of it, with this one.
    fn dependents(&self, id: Id) -> Vec<Id> {
        let u = &self.list[id];
        let mut found: Vec<Id> = u.phases.iter().flat_map(|(p, m)| self.waiters_above(*p, *m)).collect();
        found.extend(&u.plays);
        if u.is_live() && self.running == 0 {
            found.extend(&self.anys);
        }
        found
    }

    fn is_kept(&self, id: Id) -> bool {
        match &self.list[id].condition {
            Running => false,
            Waiting(p, n) => self.blocked_below(*p, *n).any(|m| self.list[m].inside),
            Ended => true,
            Any => self.live == self.live_inside,
            Of(_, _, players) => players.iter().all(|t| self.list[*t].inside),
        }
    }

    fn may_be_kept(&self, id: Id) -> bool {
        match &self.list[id].condition {
            Running => false,
            Waiting(p, n) => self.blocked_below(*p, *n).next().is_some(),
            Ended => true,
            Any => self.running == 0,
            Of(_, _, players) => players.iter().all(|t| !matches!(self.list[*t].condition, Running)),
        }
    }

    fn shrink(&mut self, mut queue: Vec<Id>) {
        while let Some(id) = queue.pop() {
            if self.list[id].inside && !self.is_kept(id) {
                self.set_inside(id, false);
                if self.list[id].waits() {
                    self.freed.push((self.list[id].number, self.list[id].name.clone()));
                }
                queue.extend(self.dependents(id));
            }
        }
    }

    /// Who can come into the set behind these comes in, and out again who is not kept there.
    fn grow(&mut self, mut queue: Vec<Id>) {
        let mut came = vec![];
        while let Some(id) = queue.pop() {
            if !self.list[id].inside && self.may_be_kept(id) {
                self.set_inside(id, true);
                came.push(id);
                queue.extend(self.dependents(id));
            }
        }
        let freed = std::mem::take(&mut self.freed);
        self.shrink(came.clone());
        self.freed = freed;
        self.newly.extend(came.into_iter().filter(|id| self.list[*id].inside));
    }

    fn begin_wait(&mut self, id: Id, p: &[u8], n: u32) {
        let p = self.phaser(p);
        self.list[id].condition = Waiting(p, n);
        self.running -= 1;
        self.phasers[p].waiters.insert((n, id));
        self.set_blocked(id, true);
        let mut seeds = vec![id];
        if self.running == 0 {
            seeds.extend(&self.anys);
        }
        self.grow(seeds);
    }

    fn end_wait(&mut self, id: Id) {
        if let Waiting(p, n) = self.list[id].condition {
            self.phasers[p].waiters.remove(&(n, id));
            self.set_blocked(id, false);
            if self.list[id].inside {
                self.set_inside(id, false);
                self.freed.push((self.list[id].number, self.list[id].name.clone()));
            }
            let behind = self.dependents(id);
            self.list[id].condition = Running;
            self.running += 1;
            self.shrink(behind);
            self.forget_phaser(p);
        }
    }

    fn leave(&mut self, id: Id, p: Id) -> u32 {
        let at = self.list[id].phases.iter().position(|(q, _)| *q == p).unwrap();
        let (_, m) = self.list[id].phases.remove(at);
        self.phasers[p].members.remove(&id);
        self.phasers[p].blocked.remove(&(m, id));
        self.memberships -= 1;
        if self.list[id].inside {
            self.shrink(self.waiters_above(p, m).collect());
        }
        self.forget_phaser(p);
        m
    }

    /// A wildcard has no tasks any more.
    fn unplay(&mut self, id: Id) {
        if let Of(_, had, players) = std::mem::replace(&mut self.list[id].condition, Ended) {
            self.memberships -= had;
            for t in players {
                self.list[t].plays.retain(|w| *w != id);
            }
        }
        self.anys.retain(|w| *w != id);
    }

    fn end(&mut self, id: Id, is_gone: bool) {
        self.there.remove(&self.list[id].name);
        let mut behind = self.dependents(id);
        if self.list[id].is_wildcard() {
            while let (false, Some((p, _))) = (is_gone, self.list[id].phases.last()) {
                self.leave(id, *p);
            }
            self.unplay(id);
        } else {
            self.running -= 1;
            self.live -= 1;
            self.list[id].condition = Ended;
            self.set_blocked(id, true);
            for w in std::mem::take(&mut self.list[id].plays) {
                if let Of(_, _, players) = &mut self.list[w].condition {
                    players.retain(|t| *t != id);
                }
            }
            if self.running == 0 {
                behind.extend(&self.anys);
            }
        }
        self.list[id].inside = true;
        if self.list[id].phases.is_empty() {
            self.remove(id);
        }
        self.grow(behind);
    }

    fn gone(&mut self, beginning: &[u8]) {
        let was: Vec<Id> = self.all().into_iter().filter(|id| self.is_stuck(*id)).collect();
        let was: HashMap<u64, Vec<u8>> = was.into_iter().map(|id| (self.list[id].number, self.list[id].name.clone())).collect();
        for id in self.all() {
            let u = &self.list[id];
            if (u.is_live() || u.is_wildcard()) && u.name.starts_with(beginning) {
                self.end_wait(id);
                self.end(id, true);
            }
        }
        let all = self.all();
        self.shrink(all.clone());
        self.grow(all.clone());
        let stuck: HashMap<u64, Id> = all.into_iter().filter(|id| self.is_stuck(*id)).map(|id| (self.list[id].number, id)).collect();
        self.newly = stuck.iter().filter(|(number, _)| !was.contains_key(number)).map(|(_, id)| *id).collect();
        self.freed = was.into_iter().filter(|(number, _)| !stuck.contains_key(number)).collect();
    }

    fn announce(&mut self, t: &[u8], said: Said, place: Option<&[u8]>) -> Result<(), String> {
        let (found, name) = (self.there.get(t).copied(), text(t));
        let u = found.map(|id| &self.list[id]);
        let (waits, wildcard) = (u.is_some_and(|u| u.waits()), u.is_some_and(|u| u.is_wildcard()));
        if wildcard && (place.is_some() || matches!(said, Said::Wait(..) | Said::Go | Said::At)) {
            return Err(format!("{name} is a wildcard"));
        }
        if waits && !matches!(said, Said::Go) {
            return Err(format!("{name} waits"));
        }
        let phase = |p: &[u8]| u.and_then(|u| Some((*self.phaser_ids.get(p)?, u.phase_on(*self.phaser_ids.get(p)?)?)));
        match said {
            Said::Go if !waits => return Err(format!("{name} does not wait")),
            Said::Join(p, _) if phase(p).is_some() => return Err(format!("{name} is a member of {}", text(p))),
            Said::Arrive(p) | Said::Leave(p) if phase(p).is_none() => return Err(format!("{name} is no member of {}", text(p))),
            Said::Arrive(p) if phase(p).unwrap().1 == u32::MAX => return Err(format!("{name} is at the last phase of {}", text(p))),
            _ => {}
        }
        let of = if let Said::Arrive(p) | Said::Leave(p) = said { phase(p) } else { None };
        self.room(found)?;
        if matches!(said, Said::Join(..)) && self.memberships >= MOST_MEMBERSHIPS {
            return Err(format!("there are {MOST_MEMBERSHIPS} memberships"));
        }
        let id = found.unwrap_or_else(|| {
            self.live += 1;
            self.running += 1;
            let id = self.add(t, Running);
            self.shrink(self.anys.clone());
            id
        });
        if let Some(place) = place {
            self.list[id].place = Some(place.iter().map(|b| if (32..=126).contains(b) { *b } else { b'?' }).collect());
        }
        match said {
            Said::Join(p, n) => {
                let p = self.phaser(p);
                self.memberships += 1;
                self.list[id].phases.push((p, n));
                self.phasers[p].members.insert(id);
                if wildcard {
                    self.phasers[p].blocked.insert((n, id));
                    self.grow(self.waiters_above(p, n).collect());
                }
            }
            Said::Arrive(_) => {
                let (p, m) = of.unwrap();
                self.list[id].phases.iter_mut().find(|(q, _)| *q == p).unwrap().1 += 1;
                if wildcard {
                    self.phasers[p].blocked.remove(&(m, id));
                    self.phasers[p].blocked.insert((m + 1, id));
                    if self.list[id].inside {
                        self.shrink(self.waiters_above(p, m).collect());
                    }
                }
            }
            Said::Leave(_) => {
                self.leave(id, of.unwrap().0);
            }
            Said::Wait(p, n) => return Ok(self.wait(id, p, n)),
            Said::Go => self.end_wait(id),
            Said::End => self.end(id, false),
            Said::At => {}
        }
        self.tell(None);
        Ok(())
    }

    fn wait(&mut self, id: Id, p: &[u8], n: u32) {
        let freed = self.freed.clone();
        self.begin_wait(id, p, n);
        if !self.guards {
            return self.tell(Some(id));
        }
        let name = text(&self.list[id].name).to_string();
        let answer = if self.list[id].inside {
            self.told = true;
            let answer = format!("refuse {name}: {}\n", self.sentence(id, "would wait", &self.reason(id)));
            for came in std::mem::take(&mut self.newly) {
                self.set_inside(came, false);
            }
            self.end_wait(id);
            self.freed = freed;
            answer
        } else {
            format!("wait {name}\n")
        };
        self.tell(Some(id));
        self.out.extend(answer.as_bytes());
    }

    fn room(&self, found: Option<Id>) -> Result<(), String> {
        if found.is_none() && self.listed() >= MOST_LISTED {
            return Err(format!("there are {MOST_LISTED} tasks"));
        }
        Ok(())
    }

    fn play(&mut self, w: &[u8], names: Option<&[u8]>) -> Result<(), String> {
        let found = self.there.get(w).copied();
        if found.is_some_and(|id| self.list[id].is_live()) {
            return Err(format!("{} is a task", text(w)));
        }
        let mut players = vec![];
        for t in names.into_iter().flat_map(|names| names.split(|b| *b == b' ')) {
            let id = self.there.get(t).copied();
            if t == w || id.is_some_and(|id| self.list[id].is_wildcard()) {
                return Err(format!("{} is a wildcard", text(t)));
            }
            players.extend(id);
        }
        self.room(found)?;
        let had = found.map_or(0, |id| if let Of(_, had, _) = self.list[id].condition { had } else { 0 });
        if names.is_some() && self.memberships - had + players.len() > MOST_MEMBERSHIPS {
            return Err(format!("there are {MOST_MEMBERSHIPS} memberships"));
        }
        let id = found.unwrap_or_else(|| self.add(w, Any));
        self.unplay(id);
        self.list[id].condition = match names {
            None => {
                self.anys.push(id);
                Any
            }
            Some(names) => {
                self.memberships += players.len();
                players.iter().for_each(|t| self.list[*t].plays.push(id));
                Of(names.to_vec(), players.len(), players)
            }
        };
        if self.list[id].inside {
            self.shrink(vec![id])
        } else {
            self.grow(vec![id])
        }
        self.tell(None);
        Ok(())
    }

    /// Takes a line, or tells its fault.
    fn line(&mut self, line: &[u8]) -> Result<(), String> {
        let malformed = || "malformed".to_string();
        if line.len() > 511 {
            return Err(malformed());
        }
        match line {
            [] | [b'#', ..] => return Ok(()),
            b"report" => return Ok(self.report()),
            b"list" => return Ok(self.put_list()),
            _ => {}
        }
        let (rest, place) = match line.windows(2).position(|pair| pair == b" @") {
            Some(at) => (&line[..at], Some(&line[at + 2..])),
            None => (line, None),
        };
        let words: Vec<&[u8]> = rest.split(|b| *b == b' ').collect();
        let t = participant_name(words[0]).ok_or_else(malformed)?;
        if place.is_some_and(|place| !(1..=256).contains(&place.len())) {
            return Err(malformed());
        }
        let said = match (&words[1..], place) {
            ([x], None) if t == b"gone" => {
                self.gone(participant_name(x).ok_or_else(malformed)?);
                return Ok(self.tell(None));
            }
            ([b"go" | b"end" | b"at"], _) if t == b"gone" => None,
            ([b"any"], None) => return self.play(t, None),
            ([b"of", tasks @ ..], None) if !tasks.is_empty() => {
                let distinct: HashSet<&&[u8]> = tasks.iter().collect();
                if distinct.len() < tasks.len() || !tasks.iter().all(|t| participant_name(t).is_some()) {
                    return Err(malformed());
                }
                return self.play(t, Some(&rest[t.len() + 4..]));
            }
            ([b"join", p, n], _) => phaser_name(p).zip(number(n)).map(|(p, n)| Said::Join(p, n)),
            ([b"wait", p, n], _) => phaser_name(p).zip(number(n)).map(|(p, n)| Said::Wait(p, n)),
            ([b"arrive", p], _) => phaser_name(p).map(Said::Arrive),
            ([b"leave", p], _) => phaser_name(p).map(Said::Leave),
            ([b"go"], _) => Some(Said::Go),
            ([b"end"], _) => Some(Said::End),
            ([b"at"], Some(_)) => Some(Said::At),
            _ => None,
        };
        self.announce(t, said.ok_or_else(malformed)?, place)
    }

    fn is_stuck(&self, id: Id) -> bool {
        self.list[id].inside && self.list[id].waits()
    }

    /// Who keeps a waiting task waiting, in list order.
    fn keepers(&self, id: Id) -> Vec<Id> {
        let Waiting(p, n) = self.list[id].condition else { return vec![] };
        let mut keepers: Vec<Id> = self.phasers[p].members.iter().copied().filter(|m| self.list[*m].phase_on(p).unwrap() < n).collect();
        keepers.sort_by_key(|m| self.list[*m].number);
        keepers
    }

    fn is_kept_waiting(&self, id: Id) -> bool {
        let Waiting(p, n) = self.list[id].condition else { return false };
        self.blocked_below(p, n).next().is_some() || self.phasers[p].members.iter().any(|m| self.list[*m].phase_on(p).unwrap() < n)
    }

    /// Who stops a waiting task, in list order.
    fn stoppers(&self, id: Id) -> Vec<Id> {
        let Waiting(p, n) = self.list[id].condition else { return vec![] };
        let task = |m: Id| match &self.list[m].condition {
            Of(names, _, players) if !names.contains(&b' ') => players.first().copied(),
            _ => Some(m),
        };
        let mut found: Vec<Id> = self.blocked_below(p, n).filter_map(task).filter(|u| self.is_stuck(*u)).collect();
        found.sort_by_key(|u| self.list[*u].number);
        found
    }

    /// Whom a task stops.
    fn stopped(&self, id: Id) -> Vec<Id> {
        let lone = |w: &&Id| matches!(&self.list[**w].condition, Of(names, _, _) if !names.contains(&b' '));
        let stand = std::iter::once(&id).chain(self.list[id].plays.iter().filter(lone));
        stand.flat_map(|w| self.list[*w].phases.iter()).flat_map(|(p, m)| self.waiters_above(*p, *m)).collect()
    }

    fn circle(&self, f: Id) -> Option<Vec<Id>> {
        let mut distance: HashMap<Id, usize> = HashMap::new();
        let mut level = vec![f];
        for d in 1.. {
            let mut next = vec![];
            for t in level.iter().flat_map(|u| self.stopped(*u)) {
                if !distance.contains_key(&t) {
                    distance.insert(t, d);
                    next.push(t);
                }
            }
            if next.is_empty() || distance.contains_key(&f) {
                break;
            }
            level = next;
        }
        let mut places = vec![];
        let (mut last, mut left) = (f, *distance.get(&f)?);
        while left > 1 {
            left -= 1;
            last = self.stoppers(last).into_iter().find(|u| distance.get(u) == Some(&left))?;
            places.push(last);
        }
        Some(places)
    }

    fn reason(&self, f: Id) -> Reason {
        if let Some(circle) = self.circle(f) {
            return Reason::Circle(circle);
        }
        let Waiting(p, n) = self.list[f].condition else { return Reason::Missing };
        let ended = self.blocked_below(p, n).filter(|m| matches!(self.list[*m].condition, Ended));
        if let Some(u) = ended.min_by_key(|m| self.list[*m].number) {
            return Reason::Ended(u);
        }
        self.stoppers(f).first().map_or(Reason::Missing, |u| Reason::Stuck(*u))
    }

    fn who(&self, id: Id) -> String {
        let u = &self.list[id];
        u.place.as_ref().map_or(text(&u.name).into(), |place| format!("{} at {}", text(&u.name), text(place)))
    }

    fn sentence(&self, f: Id, verb: &str, reason: &Reason) -> String {
        let (who, name) = (self.who(f), text(&self.list[f].name));
        match reason {
            Reason::Circle(others) if others.is_empty() => format!("{who} {verb} for itself"),
            Reason::Circle(others) => {
                let shown = if others.len() < 8 { others.len() } else { 6 };
                let whos: Vec<String> = others[..shown].iter().map(|u| self.who(*u)).collect();
                let begin = format!("{who} {verb} for {}", whos.join(", which waits for "));
                match others.len() - shown {
                    0 => format!("{begin}, which waits for {name}"),
                    k => format!("{begin}, which waits for {k} more, the last of which waits for {name}"),
                }
            }
            Reason::Ended(u) => format!("{who} {verb} for {}, which has ended", self.who(*u)),
            Reason::Stuck(u) => format!("{who} {verb} for {}, which is stuck", self.who(*u)),
            Reason::Missing => {
                let Waiting(p, n) = self.list[f].condition else { unreachable!() };
                format!("{who} {verb} for phase {n} of {}, for which somebody is missing who cannot come any more", text(&self.phasers[p].name))
            }
        }
    }

    fn condition(&self, id: Id) -> String {
        let u = &self.list[id];
        let (verb, seen) = match &u.condition {
            Running => ("running", ", last seen"),
            Waiting(..) => (if u.inside { "stuck" } else { "waiting" }, ""),
            Ended => ("ended", ", last seen"),
            Any => return "any task".into(),
            Of(tasks, _, _) => {
                let tasks: Vec<&[u8]> = tasks.split(|b| *b == b' ').collect();
                return format!("{}{}", if tasks.len() == 1 { "only " } else { "one of " }, names(tasks.into_iter()));
            }
        };
        u.place.as_ref().map_or(verb.into(), |place| format!("{verb}{seen} at {}", text(place)))
    }

    fn names_of(&self, ids: &[Id]) -> String {
        names(ids.iter().map(|id| self.list[*id].name.as_slice()))
    }

    fn row(&self, tasks: &[Id]) -> String {
        let Waiting(p, n) = self.list[tasks[0]].condition else { unreachable!() };
        let mut groups: Vec<(u32, String, Option<&[u8]>, Vec<Id>)> = vec![];
        let mut left = 0;
        for m in self.keepers(tasks[0]) {
            let (phase, words, place) = (self.list[m].phase_on(p).unwrap(), self.condition(m), self.list[m].place.as_deref());
            match groups.iter().position(|g| g.0 == phase && g.1 == words && g.2 == place) {
                Some(at) => groups[at].3.push(m),
                None if groups.len() < 3 => groups.push((phase, words, place, vec![m])),
                None => left += 1,
            }
        }
        let has = |count: usize| if count == 1 { "has" } else { "have" };
        let shown: Vec<String> = groups.iter().map(|g| format!("{} {} phase {} ({})", self.names_of(&g.3), has(g.3.len()), g.0, g.1)).collect();
        let place = self.list[tasks[0]].place.as_ref().map_or(String::new(), |place| format!(" at {}", text(place)));
        let (verb, more) = (if tasks.len() == 1 { "waits" } else { "wait" }, if left > 0 { format!(" and {left} more") } else { String::new() });
        format!("  {}{place} {verb} for phase {n} of {}; {}{more}\n", self.names_of(tasks), text(&self.phasers[p].name), shown.join(", "))
    }

    /// The rows of these tasks, the first of them in front.
    fn rows(&self, tasks: &[Id]) -> String {
        let mut at: HashMap<(Id, u32, Option<&[u8]>), usize> = HashMap::new();
        let mut rows: Vec<Vec<Id>> = vec![];
        for id in tasks {
            let Waiting(p, n) = self.list[*id].condition else { unreachable!() };
            let row = *at.entry((p, n, self.list[*id].place.as_deref())).or_insert(rows.len());
            if row == rows.len() {
                rows.push(vec![]);
            }
            rows[row].push(*id);
        }
        if let Some(row) = rows.first_mut() {
            row.sort_by_key(|id| self.list[*id].number);
        }
        let left: usize = rows.iter().skip(10).map(Vec::len).sum();
        let shown: String = rows.iter().take(10).map(|row| self.row(row)).collect();
        shown + &if left > 0 { format!("  and {left} more\n") } else { String::new() }
    }

    /// What is told of those who are free now, and of those who are stuck now.
    fn tell(&mut self, waiting: Option<Id>) {
        if self.freed.is_empty() && self.newly.is_empty() {
            return;
        }
        let (mut freed, newly) = (std::mem::take(&mut self.freed), std::mem::take(&mut self.newly));
        let mut newly: Vec<Id> = newly.into_iter().filter(|id| self.is_stuck(*id)).collect();
        let now: HashSet<u64> = newly.iter().map(|id| self.list[*id].number).collect();
        let was: HashSet<u64> = freed.iter().map(|(number, _)| *number).collect();
        freed.retain(|(number, _)| !now.contains(number));
        newly.retain(|id| !was.contains(&self.list[*id].number));
        freed.sort();
        newly.sort_by_key(|id| self.list[*id].number);
        if !freed.is_empty() {
            let line = format!("resolved: {}\n", names(freed.iter().map(|(_, name)| name.as_slice())));
            self.out.extend(line.as_bytes());
        }
        if newly.is_empty() {
            return;
        }
        self.told = true;
        let f = waiting.unwrap_or(newly[0]);
        newly.retain(|id| *id != f);
        newly.insert(0, f);
        let reason = self.reason(f);
        let others: &[Id] = match &reason {
            Reason::Circle(others) => others,
            Reason::Stuck(u) => std::slice::from_ref(u),
            _ => &[],
        };
        let is_old = newly.len() == 1 && others.iter().any(|u| *u != f);
        let kind = if matches!(reason, Reason::Circle(_)) { "deadlock" } else { "stuck" };
        let line = format!("{kind}: {}\n{}", self.sentence(f, "waits", &reason), if is_old { String::new() } else { self.rows(&newly) });
        self.out.extend(line.as_bytes());
    }

    fn report(&mut self) {
        let all = self.all();
        let count = |is: &dyn Fn(&Participant) -> bool| all.iter().filter(|id| is(&self.list[**id])).count();
        let (stuck, ended) = (count(&|u| u.waits() && u.inside), count(&|u| matches!(u.condition, Ended)));
        let kept: Vec<Id> = all.iter().copied().filter(|id| self.is_kept_waiting(*id)).collect();
        let head = format!("tasks {} running {} waiting {} stuck {stuck} ended {ended}\n", self.live, self.running, self.live - self.running);
        let rows = self.rows(&kept);
        self.out.extend(head.as_bytes());
        self.out.extend(rows.as_bytes());
    }

    fn put_list(&mut self) {
        let mut count = 0;
        for id in self.all() {
            let u = &self.list[id];
            if let Waiting(p, n) = u.condition {
                let standing = if u.inside {
                    "stuck"
                } else if self.is_kept_waiting(id) {
                    "held"
                } else {
                    "free"
                };
                let line = format!("{standing} {} {} {n}\n", text(&u.name), text(&self.phasers[p].name));
                self.out.extend(line.as_bytes());
                count += 1;
            }
        }
        self.out.extend(format!("listed {count}\n").as_bytes());
    }
}

fn main() -> io::Result<()> {
    let words: Vec<String> = std::env::args().skip(1).collect();
    let has = |word: &str| words.iter().any(|it| it == word);
    let mut monitor = Monitor { guards: has("--guard"), ..Default::default() };
    let (mut input, mut output) = (io::stdin().lock(), io::stdout().lock());
    let (mut line, mut lines, mut faulty) = (vec![], 0u64, false);
    while input.read_until(b'\n', &mut line)? > 0 {
        lines += 1;
        if line.last() == Some(&b'\n') {
            line.pop();
        }
        if let Err(fault) = monitor.line(&line) {
            writeln!(output, "line {lines}: {fault}")?;
            faulty = true;
            if !has("--keep-going") {
                std::process::exit(3);
            }
        }
        output.write_all(&monitor.out)?;
        monitor.out.clear();
        line.clear();
    }
    monitor.report();
    output.write_all(&monitor.out)?;
    let kept = monitor.all().into_iter().any(|id| monitor.is_kept_waiting(id));
    std::process::exit(if monitor.told || kept {
        1
    } else if faulty {
        3
    } else {
        0
    });
}
