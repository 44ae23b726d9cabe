//! Looks on while a schedule is played. The second program itself looks on with
//! nothing; the checks, the counts and the fuzz target look on with something.

use super::refusals::Refusal;
use super::state::State;
use super::step::Reply;

pub trait Onlooker {
    fn fresh(&mut self, _state: &State) {}
    fn before_step(&mut self, _state: &State, _thread: usize) {}
    fn after_step(&mut self, _state: &State, _thread: usize, _reply: Reply) {}
    fn refused(&mut self, _number: Refusal) {}
    fn at_end(&mut self, _state: &State) {}
}

pub struct Nobody;
impl Onlooker for Nobody {}
