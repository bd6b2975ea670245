// Stands in for the module of this name: the types are wanted, nothing runs them.
use crate::pretokenize::Pretoken;

pub struct FastR50kPretokenizer<'a>(&'a [u8]);

impl<'a> FastR50kPretokenizer<'a> {
    pub fn new(bytes: &'a [u8]) -> Self {
        FastR50kPretokenizer(bytes)
    }
}

impl<'a> Iterator for FastR50kPretokenizer<'a> {
    type Item = Pretoken<'a>;

    fn next(&mut self) -> Option<Pretoken<'a>> {
        let all = std::mem::take(&mut self.0);
        (!all.is_empty()).then_some(Pretoken(all))
    }
}

pub struct FastCl100kPretokenizer;
pub struct FastDeepSeekV3Pretokenizer;
pub struct FastOlmo3Pretokenizer;
pub struct FastQwen2Pretokenizer;
pub struct FastQwen35Pretokenizer;
