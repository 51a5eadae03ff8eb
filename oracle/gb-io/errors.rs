// Ours: `src/errors.rs` of gb-io is not in docs/src. It holds error texts only.
use std::io;

#[derive(Debug, Error)]
pub enum GbParserError {
    #[error("Syntax error: {0}")]
    SyntaxError(String),
    #[error("IO error: {0}")]
    Io(#[from] io::Error),
}
