//! Reflections built anew from a chunk's: records doubled, moved and dropped, types copied, wrapped and
//! changed in one place, names from few words, so that much is equal or nearly equal.

use super::fields::variables;
use super::lay::{lay, Style};
use crate::generate::rng::Rng;
use crate::generate::texts::{identifier, name};
use crate::rdef::{CBufferDef, CBufferVariable, MemberDesc, ResourceBinding, ResourceDef, TypeDesc};
use crate::writing::Held;
use std::borrow::Cow;

/// No type grows beyond so many nodes.
const MOST_NODES: usize = 40;

pub fn built(def: ResourceDef<'_>, rng: &mut Rng) -> Held {
    let mut def = def;
    for _ in 0..rng.pick(&[1, 2, 4, 8, 12]) {
        change(&mut def, rng);
    }
    if rng.one_in(3) {
        few_words(&mut def, rng);
    }
    lay(&def, Style::random(rng), rng)
}

fn change(def: &mut ResourceDef<'_>, rng: &mut Rng) {
    match rng.below(14) {
        0 if !def.bindings.is_empty() => {
            let at = rng.below(def.bindings.len());
            def.bindings.push(copy_binding(&def.bindings[at]));
        }
        1 if !def.bindings.is_empty() => drop(def.bindings.remove(rng.below(def.bindings.len()))),
        2 if !def.constant_buffers.is_empty() && def.constant_buffers.len() < 6 => {
            let copy = copy_buffer(&def.constant_buffers[rng.below(def.constant_buffers.len())]);
            def.constant_buffers.insert(rng.below(def.constant_buffers.len() + 1), copy);
        }
        3 if !def.constant_buffers.is_empty() => {
            let at = rng.below(def.constant_buffers.len());
            def.constant_buffers[at].cb_type = rng.pick_or_word(&[0, 0, 1, 2]);
        }
        4 | 5 => {
            if let Some(variable) = some_variable(def, rng).map(|variable| copy_variable(variable)) {
                let at = rng.below(def.constant_buffers.len());
                let variables = &mut def.constant_buffers[at].variables;
                variables.insert(rng.below(variables.len() + 1), variable);
            }
        }
        6 => {
            let value = some_variable(def, rng).map(|variable| (variable.size, variable.default_value.clone()));
            if let (Some((size, value)), Some(variable)) = (value, some_variable(def, rng)) {
                (variable.size, variable.default_value) = (size, value);
            }
        }
        7 => {
            let kind = some_variable(def, rng).map(|variable| variable.var_type.clone());
            if let (Some(kind), Some(variable)) = (kind, some_variable(def, rng)) {
                variable.var_type = kind;
            }
        }
        8 => {
            let member = some_variable(def, rng).map(|variable| some_type(&mut variable.var_type, rng).clone());
            if let (Some(member_type), Some(variable)) = (member, some_variable(def, rng)) {
                if nodes(&variable.var_type) + nodes(&member_type) <= MOST_NODES {
                    let member = MemberDesc { name: text(rng), member_type, offset: rng.pick(&[0, 4, 16]) };
                    let members = &mut some_type(&mut variable.var_type, rng).members;
                    members.insert(rng.below(members.len() + 1), member);
                }
            }
        }
        9..=11 => twin(def, rng),
        12 => {
            if let Some(variable) = some_variable(def, rng) {
                wrap(some_type(&mut variable.var_type, rng), rng);
            }
        }
        _ => {
            let sm5 = def.rd11.is_some();
            if let Some(variable) = some_variable(def, rng) {
                change_type(some_type(&mut variable.var_type, rng), sm5, rng);
            }
        }
    }
}

/// A variable is doubled, and its double's type is changed in one place, or in none.
fn twin(def: &mut ResourceDef<'_>, rng: &mut Rng) {
    let sm5 = def.rd11.is_some();
    if def.constant_buffers.is_empty() {
        return;
    }
    let at = rng.below(def.constant_buffers.len());
    let buffer = &mut def.constant_buffers[at];
    if buffer.variables.is_empty() {
        return;
    }
    let mut double = copy_variable(&buffer.variables[rng.below(buffer.variables.len())]);
    change_type(some_type(&mut double.var_type, rng), sm5, rng);
    double.name = text(rng);
    buffer.variables.push(double);
    if rng.one_in(2) {
        buffer.cb_type = 0;
    }
}

fn some_variable<'d, 'a>(def: &'d mut ResourceDef<'a>, rng: &mut Rng) -> Option<&'d mut CBufferVariable<'a>> {
    let mut variables = variables(def);
    (!variables.is_empty()).then(|| variables.swap_remove(rng.below(variables.len())))
}

/// The type itself, or one somewhere below it.
fn some_type<'d, 'a>(kind: &'d mut TypeDesc<'a>, rng: &mut Rng) -> &'d mut TypeDesc<'a> {
    if kind.members.is_empty() || rng.one_in(3) {
        return kind;
    }
    let at = rng.below(kind.members.len());
    some_type(&mut kind.members[at].member_type, rng)
}

fn nodes(kind: &TypeDesc<'_>) -> usize {
    1 + kind.members.iter().map(|member| nodes(&member.member_type)).sum::<usize>()
}

/// The type becomes a struct that has the old one once or twice.
fn wrap(kind: &mut TypeDesc<'_>, rng: &mut Rng) {
    if 2 * nodes(kind) > MOST_NODES {
        return;
    }
    let old = kind.clone();
    let member = |rng: &mut Rng| MemberDesc { name: text(rng), member_type: old.clone(), offset: rng.pick(&[0, 16]) };
    kind.members = (0..rng.between(1, 2)).map(|_| member(rng)).collect();
    kind.class = 5;
}

/// Changes one thing of a type.
fn change_type(kind: &mut TypeDesc<'_>, sm5: bool, rng: &mut Rng) {
    match rng.below(8) {
        0 => kind.elements = rng.pick(&[0, 0, 2, 0xffff]),
        1 => kind.rows = rng.pick(&[1, 4, 0xffff]),
        2 if sm5 => kind.name = text(rng),
        3 => {
            if let Some(extra) = &mut kind.sm5_extra {
                extra[rng.below(4)] = rng.pick_or_word(&[0, 1]);
            }
        }
        4 | 5 if !kind.members.is_empty() => {
            let at = rng.below(kind.members.len());
            kind.members[at].name = text(rng);
        }
        6 if !kind.members.is_empty() => {
            let at = rng.below(kind.members.len());
            kind.members[at].offset = rng.pick_or_word(&[0, 4]);
        }
        _ if kind.members.len() > 1 => drop(kind.members.remove(rng.below(kind.members.len()))),
        _ => kind.class = rng.pick(&[0, 1, 3, 5]),
    }
}

fn text(rng: &mut Rng) -> Cow<'static, str> {
    Cow::Owned(String::from_utf8(name(rng)).expect("a name is UTF-8"))
}

/// All names become one of a few words, the empty one and a word with another in it among them.
fn few_words(def: &mut ResourceDef<'_>, rng: &mut Rng) {
    let first = String::from_utf8(identifier(rng, 1, 6)).expect("an identifier is UTF-8");
    let words = [String::new(), first.clone(), format!("{first}2"), format!("x{first}"), "fade".to_string()];
    let word = |rng: &mut Rng| Cow::Owned(words[rng.below(words.len())].clone());
    let sm5 = def.rd11.is_some();
    def.creator = word(rng);
    def.bindings.iter_mut().for_each(|binding| binding.name = word(rng));
    for buffer in &mut def.constant_buffers {
        buffer.name = word(rng);
        for variable in &mut buffer.variables {
            variable.name = word(rng);
            rename(&mut variable.var_type, sm5, &mut || word(rng));
        }
    }
}

fn rename<'a>(kind: &mut TypeDesc<'a>, sm5: bool, word: &mut impl FnMut() -> Cow<'a, str>) {
    if sm5 {
        kind.name = word();
    }
    for member in &mut kind.members {
        member.name = word();
        rename(&mut member.member_type, sm5, word);
    }
}

fn copy_binding<'a>(b: &ResourceBinding<'a>) -> ResourceBinding<'a> {
    ResourceBinding { name: b.name.clone(), ..*b }
}

fn copy_variable<'a>(v: &CBufferVariable<'a>) -> CBufferVariable<'a> {
    CBufferVariable { name: v.name.clone(), var_type: v.var_type.clone(), default_value: v.default_value.clone(), ..*v }
}

fn copy_buffer<'a>(b: &CBufferDef<'a>) -> CBufferDef<'a> {
    CBufferDef { name: b.name.clone(), variables: b.variables.iter().map(copy_variable).collect(), ..*b }
}
