//! The commands: each reads its words, calls the original and shows the result.

use std::collections::HashMap;
use std::str::FromStr;

use crate::configuration::TracePropagationBehaviorExtract;
use crate::core::configuration::TracePropagationStyle;
use crate::core::sampling::{SamplingMechanism, SamplingPriority};
use crate::propagation::carrier::{Extractor, Injector};
use crate::propagation::context::{
    span_context_to_inject, InjectSpanContext, InjectTraceState, Sampling, SpanContext,
};
use crate::propagation::error::Error;
use crate::propagation::{datadog, tracecontext, PropagationConfig};
use crate::tags::Tags;
use crate::text::{show, show_or_none, show_table, table, text, text_or_none, words};

/// The tag limit; nothing else is asked for by the two propagators.
struct Limit(usize);

impl PropagationConfig for Limit {
    fn trace_propagation_style(&self) -> Option<&[TracePropagationStyle]> {
        None
    }
    fn trace_propagation_style_extract(&self) -> Option<&[TracePropagationStyle]> {
        None
    }
    fn trace_propagation_style_inject(&self) -> Option<&[TracePropagationStyle]> {
        None
    }
    fn trace_propagation_extract_first(&self) -> bool {
        false
    }
    fn trace_propagation_behavior_extract(&self) -> TracePropagationBehaviorExtract {
        TracePropagationBehaviorExtract::Continue
    }
    fn datadog_tags_max_length(&self) -> usize {
        self.0
    }
}

/// Passes each set on to the original's carrier and notes it.
struct Noted {
    below: HashMap<String, String>,
    given: bool,
    sets: Vec<(String, String)>,
}

impl Injector for Noted {
    fn set(&mut self, key: &str, value: String) {
        self.sets.push((key.to_string(), value.clone()));
        Injector::set(&mut self.below, key, value);
    }
}

fn pairs<'a>(
    entries: impl IntoIterator<Item = (&'a String, &'a String)>,
) -> impl Iterator<Item = (&'a str, &'a str)> {
    entries.into_iter().map(|(k, v)| (k.as_str(), v.as_str()))
}

fn sorted<'a>(
    entries: impl IntoIterator<Item = (&'a String, &'a String)>,
) -> Vec<(&'a str, &'a str)> {
    let mut all: Vec<_> = pairs(entries).collect();
    all.sort();
    all
}

fn number<T: FromStr>(word: &str) -> Result<T, String> {
    word.parse().map_err(|_| format!("no number: {word}"))
}

fn number_or_none<T: FromStr>(word: &str) -> Result<Option<T>, String> {
    if word == "-" {
        Ok(None)
    } else {
        number(word).map(Some)
    }
}

fn hexadecimal(word: &str) -> Result<u64, String> {
    u64::from_str_radix(word, 16).map_err(|_| format!("no hexadecimal number: {word}"))
}

fn yes_or_no(word: &str) -> Result<bool, String> {
    match word {
        "0" => Ok(false),
        "1" => Ok(true),
        _ => Err(format!("neither 0 nor 1: {word}")),
    }
}

fn or_none<T: std::fmt::Display>(value: Option<T>) -> String {
    value.map_or("none".to_string(), |v| v.to_string())
}

fn or_dash<T: std::fmt::Display>(value: Option<T>) -> String {
    value.map_or("-".to_string(), |v| v.to_string())
}

fn show_error(e: &Error, plain: bool) -> String {
    format!("error={} whole={}", show(e.message, plain), show(&e.to_string(), plain))
}

fn ids(trace_id: u128, span_id: u64) -> String {
    format!("high={:016x} low={:016x} span={span_id:016x}", (trace_id >> 64) as u64, trace_id as u64)
}

fn show_context(c: &SpanContext, tracestate: &str, plain: bool) -> String {
    let ot = c.tracestate.as_ref().and_then(|t| t.ot_member.as_deref());
    let members = c.tracestate.as_ref().and_then(|t| t.additional_values.as_ref());
    format!(
        "{} priority={} mechanism={} origin={} remote={} tracestate={tracestate} ot={} members={} tags={}",
        ids(c.trace_id, c.span_id),
        or_dash(c.sampling.priority.map(|p| p.0)),
        or_dash(c.sampling.mechanism.map(|m| m.0)),
        show_or_none(c.origin.as_deref(), plain),
        u8::from(c.is_remote),
        show_or_none(ot, plain),
        show_table(members.into_iter().flatten().map(|(k, v)| (k.as_str(), v.as_str())), plain),
        show_table(sorted(&c.tags), plain),
    )
}

fn show_sets(carrier: &Noted, plain: bool) -> String {
    let sets = carrier.sets.iter().map(|(k, v)| (k.as_str(), v.as_str()));
    let mut shown = format!("sets={}", show_table(sets, plain));
    if carrier.given {
        shown.push_str(" shown=");
        shown.push_str(&show_table(sorted(&carrier.below), plain));
    }
    shown
}

fn carrier_of(names: &[&str], values: &[&str]) -> Result<HashMap<String, String>, String> {
    let mut carrier = HashMap::new();
    for (name, word) in names.iter().zip(values) {
        if let Some(value) = text_or_none(word)? {
            carrier.insert(name.to_string(), value);
        }
    }
    Ok(carrier)
}

fn noted(word: Option<&&str>) -> Result<Noted, String> {
    let below = table(word.copied().unwrap_or("-"))?.into_iter().collect();
    Ok(Noted { below, given: word.is_some(), sets: Vec::new() })
}

fn trace_id(high: &str, low: &str) -> Result<u128, String> {
    Ok((u128::from(hexadecimal(high)?) << 64) | u128::from(hexadecimal(low)?))
}

pub fn answer(line: &str, plain: bool) -> Result<String, String> {
    let line = words(line);
    let line: Vec<&str> = line.iter().map(String::as_str).collect();
    match line[..] {
        ["u64", t] => Ok(or_none(text(t)?.parse::<u64>().ok())),
        ["i8", t] => Ok(or_none(SamplingPriority::from_str(&text(t)?).ok().map(|p| p.0))),
        ["tid", t] => {
            let t = text(t)?;
            Ok(if datadog::higher_order_bits_valid(&t) {
                u64::from_str_radix(&t, 16).map_or("none".to_string(), |n| format!("{n:016x}"))
            } else {
                "none".to_string()
            })
        }
        ["mechanism", t] => Ok(or_none(SamplingMechanism::from_str(&text(t)?).ok().map(|m| m.0))),
        ["key", t] => Ok(tracecontext::Tracestate::valid_key(&text(t)?).to_string()),
        ["value", t] => Ok(tracecontext::Tracestate::valid_value(&text(t)?).to_string()),
        ["traceparent", t] => Ok(match tracecontext::extract_traceparent(text(t)?.trim()) {
            Ok(t) => format!("{} priority={}", ids(t.trace_id, t.span_id), t.sampling_priority),
            Err(e) => show_error(&e, plain),
        }),
        ["w3c-extract", parent, state] => {
            let carrier = carrier_of(&["traceparent", "tracestate"], &[parent, state])?;
            let given = if state == "-" { "absent" } else { "unlawful" };
            Ok(match tracecontext::try_extract(&carrier) {
                None => "none".to_string(),
                Some(Err(e)) => show_error(&e, plain),
                Some(Ok(c)) => {
                    let lawful = if c.tracestate.is_some() { "lawful" } else { given };
                    show_context(&c, lawful, plain)
                }
            })
        }
        ["w3c-inject", high, low, span, priority, origin, remote, carried, ot, tags, ref shown @ ..]
            if shown.len() < 2 =>
        {
            let mut carrier = noted(shown.first())?;
            let mut tags: Tags = table(tags)?.into_iter().collect();
            let origin = text_or_none(origin)?;
            let ot = text_or_none(ot)?;
            let context = InjectSpanContext {
                trace_id: trace_id(high, low)?,
                span_id: hexadecimal(span)?,
                sampling: Sampling {
                    priority: number_or_none(priority)?.map(SamplingPriority),
                    mechanism: None,
                },
                origin: origin.as_deref(),
                tags: &mut tags,
                is_remote: yes_or_no(remote)?,
                tracestate: text_or_none(carried)?.map(InjectTraceState::from_header),
                ot_member: ot.as_deref(),
            };
            tracecontext::inject(&context, &mut carrier);
            Ok(show_sets(&carrier, plain))
        }
        ["w3c-onward", parent, state] => {
            let carrier = carrier_of(&["traceparent", "tracestate"], &[parent, state])?;
            match tracecontext::try_extract(&carrier) {
                Some(Ok(mut c)) => {
                    let mut carrier = noted(None)?;
                    tracecontext::inject(&span_context_to_inject(&mut c), &mut carrier);
                    Ok(show_sets(&carrier, plain))
                }
                Some(Err(e)) => Ok(show_error(&e, plain)),
                None => Ok("none".to_string()),
            }
        }
        ["dd-extract", limit, trace, parent, priority, origin, tags] => {
            let carrier = carrier_of(
                &[
                    datadog::DATADOG_TRACE_ID_KEY,
                    datadog::DATADOG_PARENT_ID_KEY,
                    datadog::DATADOG_SAMPLING_PRIORITY_KEY,
                    datadog::DATADOG_ORIGIN_KEY,
                    datadog::DATADOG_TAGS_KEY,
                ],
                &[trace, parent, priority, origin, tags],
            )?;
            Ok(match datadog::try_extract(&carrier, &Limit(number(limit)?)) {
                None => "none".to_string(),
                Some(Err(e)) => show_error(&e, plain),
                Some(Ok(c)) => show_context(&c, "absent", plain),
            })
        }
        ["dd-inject", limit, high, low, span, priority, mechanism, origin, tags, ref shown @ ..]
            if shown.len() < 2 =>
        {
            let mut carrier = noted(shown.first())?;
            let mut tags: Tags = table(tags)?.into_iter().collect();
            let origin = text_or_none(origin)?;
            let mut context = InjectSpanContext {
                trace_id: trace_id(high, low)?,
                span_id: hexadecimal(span)?,
                sampling: Sampling {
                    priority: number_or_none(priority)?.map(SamplingPriority),
                    mechanism: number_or_none(mechanism)?.map(SamplingMechanism),
                },
                origin: origin.as_deref(),
                tags: &mut tags,
                is_remote: false,
                tracestate: None,
                ot_member: None,
            };
            datadog::inject(&mut context, &mut carrier, &Limit(number(limit)?));
            Ok(format!("{} tags={}", show_sets(&carrier, plain), show_table(sorted(&tags), plain)))
        }
        ["carrier-get", held, name] => {
            let carrier: HashMap<String, String> = table(held)?.into_iter().collect();
            Ok(show_or_none(Extractor::get(&carrier, &text(name)?), plain))
        }
        ["carrier-keys", held] => {
            let carrier: HashMap<String, String> = table(held)?.into_iter().collect();
            let keys: Vec<String> =
                Extractor::keys(&carrier).into_iter().map(|key| show(key, plain)).collect();
            Ok(if keys.is_empty() { "-".to_string() } else { keys.join(",") })
        }
        ["carrier-set", held, name, value] => {
            let mut carrier: HashMap<String, String> = table(held)?.into_iter().collect();
            Injector::set(&mut carrier, &text(name)?, text(value)?);
            Ok(show_table(sorted(&carrier), plain))
        }
        _ => Err("no command, or not its words".to_string()),
    }
}
