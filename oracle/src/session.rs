//! A run of lines: the tracker that is held, the refusals around the original `update`, and the answers.
use crate::lines;
use crate::object::Object;
use crate::oc_sort_tracker::OCSort;
use crate::rect::Rect;
use crate::state::{hash, put_report, Filter, Settings, State, Track};
use crate::words::{put_u64, Fault, Words, NUMBERS};

const TRACKS: usize = 64;
const STATE: Fault = "bad state";

enum Held {
    Nothing,
    Sound(Settings, OCSort),
    /// A loaded state that breaks a state rule: every frame is refused, and it stays as it was given.
    Unsound(State),
}

/// A `load` whose lines are still coming; `fault` is the first thing wrong with them.
struct Loading {
    state: Result<State, Fault>,
    open: Option<Draft>,
}

struct Draft {
    track: Track,
    frozen: bool,
    lines: usize,
}

pub struct Session {
    number: u64,
    held: Held,
    loading: Option<Loading>,
}

type Answer = Result<Vec<(usize, [f32; 4])>, u32>;

impl Session {
    pub fn new() -> Session {
        Session { number: 0, held: Held::Nothing, loading: None }
    }

    /// Answers one line (without its line feed) at the end of `out`.
    pub fn line(&mut self, line: &str, out: &mut Vec<u8>) {
        self.number += 1;
        if line.is_empty() || line.starts_with('#') {
            return;
        }
        let start = out.len();
        let done = if self.loading.is_some() { self.load_more(line) } else { self.answer(line, out) };
        if let Err(fault) = done {
            out.truncate(start);
            out.extend(format!("error: line {}: {fault}\n", self.number).as_bytes());
        }
    }

    fn answer(&mut self, line: &str, out: &mut Vec<u8>) -> Result<(), Fault> {
        let mut words = Words::of(line);
        match words.word()? {
            "new" => self.make(&mut words, out),
            "frame" => self.frames(&mut words, out, false),
            "repeat" => self.frames(&mut words, out, true),
            "load" => self.load(&mut words),
            "state" => {
                words.end()?;
                self.put_state(out);
                Ok(())
            }
            "hash" => {
                words.end()?;
                let mut text = Vec::new();
                if self.put_state(&mut text) {
                    put_u64(out, hash(&text));
                    out.push(b'\n');
                } else {
                    out.extend(text);
                }
                Ok(())
            }
            word => match lines::answer(word, &mut words, out)? {
                true => Ok(()),
                false => Err("no such line"),
            },
        }
    }

    fn make(&mut self, words: &mut Words, out: &mut Vec<u8>) -> Result<(), Fault> {
        let settings = settings(words)?;
        words.end()?;
        if settings.in_range() {
            let state = State { settings: settings.clone(), frames: 0, ids: 0, count: 0, tracks: Vec::new() };
            self.held = Held::Sound(settings, OCSort::of_state(&state));
            out.extend(b"ok\n");
        } else {
            self.held = Held::Nothing;
            out.extend(b"refused 2\n");
        }
        Ok(())
    }

    fn frames(&mut self, words: &mut Words, out: &mut Vec<u8>, repeated: bool) -> Result<(), Fault> {
        let times = if repeated { words.whole()? } else { 1 };
        if times == 0 {
            return Err(NUMBERS);
        }
        let (boxes, ids) = (words.whole()?, words.whole()?);
        let input = words.rest_f32()?;
        let mut last = None;
        for _ in 0..times {
            last = self.frame(boxes, ids, &input);
        }
        match last {
            None => out.extend(b"no tracker\n"),
            Some(Err(number)) => out.extend(format!("refused {number}\n").as_bytes()),
            Some(Ok(reports)) => {
                out.extend(format!("ok {}\n", reports.len()).as_bytes());
                reports.iter().for_each(|&(id, rect)| put_report(out, id, rect));
            }
        }
        Ok(())
    }

    fn frame(&mut self, boxes: usize, ids: usize, input: &[f32]) -> Option<Answer> {
        match &mut self.held {
            Held::Nothing => None,
            Held::Unsound(_) => Some(Err(1)),
            Held::Sound(settings, tracker) => Some(frame(settings, tracker, boxes, ids, input)),
        }
    }

    fn put_state(&self, out: &mut Vec<u8>) -> bool {
        match &self.held {
            Held::Nothing => out.extend(b"no tracker\n"),
            Held::Unsound(state) => state.put(out),
            Held::Sound(settings, tracker) => {
                let tracks = tracker.tracks();
                let (frames, ids) = (tracker.frame_count(), tracker.ids_issued());
                State { settings: settings.clone(), frames, ids, count: tracks.len(), tracks }.put(out);
            }
        }
        !matches!(self.held, Held::Nothing)
    }

    fn load(&mut self, words: &mut Words) -> Result<(), Fault> {
        let settings = settings(words);
        let settings = settings.and_then(|s| Ok((s, words.whole()?, words.whole()?, words.whole()?)));
        let state =
            settings.map(|(settings, frames, ids, count)| State { settings, frames, ids, count, tracks: Vec::new() });
        let state = state.and_then(|s| words.end().map(|_| s));
        self.held = Held::Nothing;
        self.loading = Some(Loading { state, open: None });
        Ok(())
    }

    /// Takes one more line of a `load`, which drops what was held; what is wrong is said at its end.
    fn load_more(&mut self, line: &str) -> Result<(), Fault> {
        let mut loading = self.loading.take().unwrap();
        if line == "end" {
            let state = loading.finish()?;
            self.held = if !state.is_sound() {
                Held::Unsound(state)
            } else if state.tracks.iter().any(|t| t.kept.iter().skip(t.age + 1).any(|k| k.is_some())) {
                return Err(STATE);
            } else {
                Held::Sound(state.settings.clone(), OCSort::of_state(&state))
            };
            return Ok(());
        }
        if loading.state.is_ok() {
            if let Err(fault) = loading.take_line(line) {
                loading.state = Err(fault);
            }
        }
        self.loading = Some(loading);
        Ok(())
    }
}

impl Loading {
    fn take_line(&mut self, line: &str) -> Result<(), Fault> {
        let mut words = Words::of(line);
        let word = words.word()?;
        if word == "track" {
            self.close()?;
            let [id, age, streak, since] = [words.whole()?, words.whole()?, words.whole()?, words.whole()?];
            let frozen = words.flag()?;
            words.end()?;
            let filter = Filter { x: [0.0; 7], p: [0.0; 49] };
            let saved = Some(filter.clone()).filter(|_| frozen);
            let (last, list, dir, kept, newest) = (None, None, None, [None; 8], None);
            let track = Track { id, age, streak, since, filter, saved, last, list, dir, kept, newest };
            self.open = Some(Draft { track, frozen, lines: 0 });
            return Ok(());
        }
        let draft = self.open.as_mut().ok_or(STATE)?;
        draft.take_line(word, &mut words)
    }

    fn close(&mut self) -> Result<(), Fault> {
        if let Some(draft) = self.open.take() {
            if draft.lines != draft.order().len() {
                return Err(STATE);
            }
            self.state.as_mut().map_err(|f| *f)?.tracks.push(draft.track);
        }
        Ok(())
    }

    fn finish(mut self) -> Result<State, Fault> {
        self.close()?;
        let state = self.state.map_err(|_| STATE)?;
        if state.tracks.len() != state.count.min(TRACKS) {
            return Err(STATE);
        }
        Ok(state)
    }
}

impl Draft {
    /// The lines that have to come, in order.
    fn order(&self) -> Vec<&'static str> {
        let saved: &[&str] = if self.frozen { &["sx", "sp"] } else { &[] };
        let rest =
            ["last", "list", "dir", "kept0", "kept1", "kept2", "kept3", "kept4", "kept5", "kept6", "kept7", "newest"];
        [&["x", "p"], saved, &rest].concat()
    }

    fn take_line(&mut self, word: &str, words: &mut Words) -> Result<(), Fault> {
        if self.order().get(self.lines) != Some(&word) {
            return Err(STATE);
        }
        self.lines += 1;
        let track = &mut self.track;
        match word {
            "x" => track.filter.x = words.f32s()?,
            "p" => track.filter.p = words.f32s()?,
            "sx" => track.saved.as_mut().unwrap().x = words.f32s()?,
            "sp" => track.saved.as_mut().unwrap().p = words.f32s()?,
            "last" => track.last = maybe(words)?,
            "list" => track.list = maybe(words)?,
            "dir" => track.dir = maybe(words)?,
            "newest" => track.newest = maybe(words)?,
            kept => track.kept[(kept.as_bytes()[4] - b'0') as usize] = maybe(words)?,
        }
        words.end()
    }
}

fn maybe<const N: usize>(words: &mut Words) -> Result<Option<[f32; N]>, Fault> {
    if words.at_none() {
        words.word()?;
        return Ok(None);
    }
    words.f32s().map(Some)
}

fn settings(words: &mut Words) -> Result<Settings, Fault> {
    let [det_thresh, iou_threshold, inertia] = words.f32s()?;
    let [max_age, min_hits, delta_t] = [words.whole()?, words.whole()?, words.whole()?];
    Ok(Settings { det_thresh, iou_threshold, inertia, max_age, min_hits, delta_t, use_byte: words.flag()? })
}

/// Rows 3 to 7 in their order, and otherwise the original's own frame.
fn frame(settings: &Settings, tracker: &mut OCSort, boxes: usize, ids: usize, input: &[f32]) -> Answer {
    if input.len() % 5 != 0 {
        return Err(3);
    }
    if input.len() > 5 * TRACKS {
        return Err(4);
    }
    if boxes < 4 * TRACKS || ids < TRACKS {
        return Err(5);
    }
    if tracker.frame_count() >= 1_000_000 {
        return Err(6);
    }
    let objects: Vec<Object> =
        input.chunks(5).map(|o| Object::new(Rect::new(o[0], o[1], o[2], o[3]), o[4], None)).collect();
    if overfull(settings, tracker, &objects) {
        return Err(7);
    }
    Ok(reports(tracker.update(&objects).expect("the original refused")))
}

/// Tracks left after prediction and births exceed the table. Births are known only from a whole frame, so a
/// copy runs it, where the table could be too small.
fn overfull(settings: &Settings, tracker: &OCSort, objects: &[Object]) -> bool {
    let first_class = objects.iter().filter(|o| o.get_prob() > settings.det_thresh).count();
    if tracker.tracker_count() + first_class <= TRACKS {
        return false;
    }
    let mut copy = tracker.clone();
    copy.update(objects).expect("the original refused");
    tracker.left_after_prediction() + (copy.ids_issued() - tracker.ids_issued()) > TRACKS
}

fn reports(objects: Vec<Object>) -> Vec<(usize, [f32; 4])> {
    let report = |o: &Object| (o.get_track_id().unwrap(), [o.get_x(), o.get_y(), o.get_width(), o.get_height()]);
    objects.iter().map(report).collect()
}
