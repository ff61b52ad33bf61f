; Behind shuffle.ll: the shuffle of sixteen bytes by sixteen places, for a host that knows the answers.
target datalayout = "e-m:e-p:64:64-p10:8:8-p20:8:8-i64:64-i128:128-n32:64-S128-ni:1:10:20"
target triple = "wasm64-unknown-unknown"

define void @shuffled(ptr %to, ptr %bytes, ptr %places) {
  %b = load <16 x i8>, ptr %bytes, align 1
  %p = load <16 x i8>, ptr %places, align 1
  %r = call <16 x i8> @shuffle_bytes(<16 x i8> %b, <16 x i8> %p)
  store <16 x i8> %r, ptr %to, align 1
  ret void
}
