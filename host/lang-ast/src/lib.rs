#![doc = include_str!("../README.md")]
#![deny(unsafe_code, unsafe_op_in_unsafe_fn)]
#![warn(missing_docs)]

mod answer;
mod expr;
mod ffi;
mod ids;
mod layout;
mod operator;
mod page;
mod read;
mod refusal;
mod sheet;
mod shown;
mod store;

pub use answer::{Answer, Builtin};
pub use expr::{BindingValue, Bindings, Expr, InterpolPart, Literal, Pat, PatField};
pub use ids::{ExprId, NameId, ScopeId};
pub use layout::{CHANGE_ROOM, STORE_BYTES, TEXT_LIMIT};
pub use operator::{BinOp, UnaryOp};
pub use page::Pointer;
pub use read::{DuplicateKey, Name, NameKind, Scope, ScopeKind};
pub use refusal::{Reason, Refusal};
pub use sheet::{Fault, Kind, NodeId, SheetError, SheetWriter};
pub use store::Store;
