//! One operation on both engines, and the first difference in what they give back.

use second_engine::counts::{CheckAnswer, CountAnswer};
use second_engine::refusal::Refusal;
use second_engine::{load, Call, Probe, Session, WrittenSession};

use crate::flat::{bytes_of, session_of};
use crate::player::{self, Answer};

/// What differs, in words.
pub type Difference = String;

/// Ends the test with the difference, if there is one.
pub fn equal<T>(compared: Result<T, Difference>) -> T {
    compared.unwrap_or_else(|difference| panic!("{difference}"))
}

/// Bytes that no call writes, so that a slice left as it was is seen.
pub fn untouched_log(length: usize) -> Vec<u8> {
    vec![0xAB; length]
}

pub fn hex(bytes: &[u8]) -> String {
    bytes.iter().map(|byte| format!("{byte:02X}")).collect::<Vec<_>>().join(" ")
}

fn numbered<T>(answer: Result<T, Refusal>) -> Result<T, u8> {
    answer.map_err(Refusal::number)
}

fn same_answer<T: PartialEq + std::fmt::Debug>(player: T, second: T) -> Result<(), Difference> {
    if player == second {
        return Ok(());
    }
    Err(format!("the player answers {player:?}, the second engine {second:?}"))
}

fn same_bytes(what: &str, player: &[u8], second: &[u8]) -> Result<(), Difference> {
    if player == second {
        return Ok(());
    }
    let place = player.iter().zip(second).position(|(one, other)| one != other);
    Err(format!("{what}: byte {place:?} differs\nplayer {}\nsecond {}", hex(player), hex(second)))
}

/// A session that came from a document, in both engines.
#[derive(Clone)]
pub struct Both {
    pub player: player::Session,
    pub second: Session,
}

impl Both {
    /// The loaded session, or the number of the refusal that both give.
    pub fn load(document: &[u8]) -> Result<Result<Both, u8>, Difference> {
        let (player, answer) = player::Session::load(document);
        let (written, second_answer) = WrittenSession::load(document);
        same_answer(answer, numbered(second_answer).map(|()| 0))?;
        same_bytes("session", &bytes_of(&player), &bytes_of(&written))?;
        Ok(numbered(load(document)).map(|second| Both { player, second }))
    }

    pub fn call(
        &mut self,
        call: Call,
        log_length: usize,
        probe: &mut Probe,
    ) -> Result<(Result<usize, Refusal>, Vec<u8>), Difference> {
        let (mut log, mut second_log) = (untouched_log(log_length), untouched_log(log_length));
        let answer = self.player.call(call, &mut log);
        let second_answer = self.second.probed_call(call, &mut second_log, probe);
        same_answer(answer, numbered(second_answer))?;
        same_bytes("log", &log, &second_log)?;
        let written = WrittenSession::from(&self.second);
        same_bytes("session", &bytes_of(&self.player), &bytes_of(&written))?;
        Ok((second_answer, log))
    }

    pub fn read(&self, class: u8, id: u8) -> Result<Result<(), Refusal>, Difference> {
        let second = self.second.read(class, id);
        let reading = second.map(|found| (found.state as u8, found.value, found.count));
        same_answer(self.player.read(class, id), numbered(reading))?;
        Ok(second.map(|_| ()))
    }

    /// A check of counts and the count of an anchor.
    pub fn counts(&self, ids: [u8; 3]) -> Result<(CheckAnswer, CountAnswer), Difference> {
        let [media, anchor, property] = ids;
        let second = &self.second;
        let answers = (second.check_counts(media, property), second.count_of(anchor, property));
        same_counts(&self.player, answers, ids)
    }
}

/// The second engine's answers about a media, an anchor and a property, if the player's are the
/// same.
fn same_counts(
    player: &player::Session,
    second: (CheckAnswer, CountAnswer),
    [media, anchor, property]: [u8; 3],
) -> Result<(CheckAnswer, CountAnswer), Difference> {
    let returned = (player.check_counts(media, property), player.count_of(anchor, property));
    same_answer(returned, (second.0.into(), second.1.into())).map_err(|difference| {
        format!("media {media}, anchor {anchor}, property {property}: {difference}")
    })?;
    Ok(second)
}

/// A call on a session that somebody wrote down, whole or broken; the session that comes back.
pub fn call_on_written(
    bytes: &[u8],
    call: Call,
    log_length: usize,
) -> Result<(Answer, Vec<u8>), Difference> {
    let mut player: player::Session = session_of(bytes);
    let mut written: WrittenSession = session_of(bytes);
    let (mut log, mut second_log) = (untouched_log(log_length), untouched_log(log_length));
    let answer = player.call(call, &mut log);
    let second_answer = written.call(call, &mut second_log);
    same_answer(answer, numbered(second_answer))?;
    same_bytes("log", &log, &second_log)?;
    let after = bytes_of(&player);
    same_bytes("session", &after, &bytes_of(&written))?;
    Ok((answer, after))
}

/// A read of a session that somebody wrote down. Both engines' sessions are handed in, since making
/// them takes longer than a read.
pub fn read_of_written(
    player: &player::Session,
    written: &WrittenSession,
    class: u8,
    id: u8,
) -> Result<Result<(), u8>, Difference> {
    let second = numbered(written.read(class, id))
        .map(|found| (found.state as u8, found.value, found.count));
    same_answer(player.read(class, id), second)?;
    Ok(second.map(|_| ()))
}

/// A check of counts and the count of an anchor on a session that somebody wrote down.
pub fn counts_of_written(
    player: &player::Session,
    written: &WrittenSession,
    ids: [u8; 3],
) -> Result<(CheckAnswer, CountAnswer), Difference> {
    let [media, anchor, property] = ids;
    let answers = (written.check_counts(media, property), written.count_of(anchor, property));
    same_counts(player, answers, ids)
}
