//! The page's files and the API's description, which are part of the program: no request reaches a file.
use super::reply::{with_type, HttpReply};
use hyper::header::{HeaderValue, CACHE_CONTROL, CONTENT_SECURITY_POLICY};

const POLICY: &str = "default-src 'none'; script-src 'self'; style-src 'self'; img-src 'self'; connect-src 'self'; \
    base-uri 'none'; form-action 'none'; frame-ancestors 'none'";

#[derive(Debug, PartialEq, Eq)]
pub struct Asset {
    path: &'static str,
    kind: &'static str,
    bytes: &'static [u8],
}

const SCRIPT: &str = "text/javascript; charset=utf-8";

const ASSETS: [Asset; 11] = [
    Asset { path: "/", kind: "text/html; charset=utf-8", bytes: include_bytes!("../../web/index.html") },
    Asset { path: "/page.css", kind: "text/css; charset=utf-8", bytes: include_bytes!("../../web/page.css") },
    Asset { path: "/icon.svg", kind: "image/svg+xml", bytes: include_bytes!("../../web/icon.svg") },
    Asset { path: "/main.js", kind: SCRIPT, bytes: include_bytes!("../../web/main.js") },
    Asset { path: "/api.js", kind: SCRIPT, bytes: include_bytes!("../../web/api.js") },
    Asset { path: "/actions.js", kind: SCRIPT, bytes: include_bytes!("../../web/actions.js") },
    Asset { path: "/records.js", kind: SCRIPT, bytes: include_bytes!("../../web/records.js") },
    Asset { path: "/charts.js", kind: SCRIPT, bytes: include_bytes!("../../web/charts.js") },
    Asset { path: "/views.js", kind: SCRIPT, bytes: include_bytes!("../../web/views.js") },
    Asset { path: "/chart.js", kind: SCRIPT, bytes: include_bytes!(concat!(env!("OUT_DIR"), "/chart.js")) },
    Asset { path: "/openapi.json", kind: "application/json", bytes: include_bytes!("../../web/openapi.json") },
];

pub fn asset(path: &str) -> Option<&'static Asset> {
    ASSETS.iter().find(|asset| asset.path == path)
}

pub fn answer(asset: &'static Asset) -> HttpReply {
    let mut reply = with_type(200, asset.kind, asset.bytes);
    let headers = reply.headers_mut();
    headers.insert(CONTENT_SECURITY_POLICY, HeaderValue::from_static(POLICY));
    headers.insert(CACHE_CONTROL, HeaderValue::from_static("no-cache"));
    reply
}
