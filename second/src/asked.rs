//! A question with its answer.

pub struct Asked<Q> {
    pub question: Q,
    pub answer: String,
}

#[cfg(test)]
impl<Q: std::fmt::Display> Asked<Q> {
    /// Both as they are stored.
    pub fn texts(&self) -> (String, String) {
        (self.question.to_string(), self.answer.clone())
    }

    /// How many bytes both take, a line each.
    pub fn size(&self) -> usize {
        let (question, answer) = self.texts();
        question.len() + answer.len() + 2
    }
}
