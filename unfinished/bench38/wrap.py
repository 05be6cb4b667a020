import re,sys,glob
room=sys.argv[1]
t=open(room+'/module.ll').read()
out=[]
for f in sorted(glob.glob(room+'/tryperf/src/*.rt')):
    mod=f.split('/')[-1][:-3]
    pre='tryperf::' + ('' if mod=='main' else mod+'::')
    for m in re.finditer(r'pub extern "C" fn (\w+)\(([^{]*?)\)(?: -> (\w+))?\s*(?:requires|ensures)',open(f).read(),re.S):
        name,ps,ret=m.groups()
        ps=[p.strip() for p in ps.split(',\n' if '\n' in ps else ', ') if p.strip()]
        ps=[p.rstrip(',') for p in ps]
        sig=[];body=[];call=[];k=0
        for p in ps:
            ty=p.split(':',1)[1].strip()
            k+=1
            if re.match(r'&(mut )?\[\w+\]$',ty):
                sig+=['ptr %%p%d'%k,'i64 %%n%d'%k]
                body+=['  %%s%d = alloca { ptr, i64 }, align 8'%k,'  store ptr %%p%d, ptr %%s%d, align 8'%(k,k),'  %%f%d = getelementptr i8, ptr %%s%d, i64 8'%(k,k),'  store i64 %%n%d, ptr %%f%d, align 8'%(k,k)]
                call.append('ptr noundef %%s%d'%k)
            elif ty.startswith('&'):
                sig.append('ptr %%p%d'%k); call.append('ptr noundef %%p%d'%k)
            else:
                it={'u32':'i32','u64':'i64','i64':'i64','usize':'i64'}[ty]
                sig.append('%s %%p%d'%(it,k)); call.append('%s noundef %%p%d'%(it,k))
        if ret:
            out.append('define i64 @%s() #0 {\n  %%r = call i64 @"%s%s"()\n  ret i64 %%r\n}\n'%(name,pre,name))
        else:
            out.append('define void @%s(%s) #0 {\n%s\n  call void @"%s%s"(%s)\n  ret void\n}\n'%(name,', '.join(sig),'\n'.join(body),pre,name,', '.join(call)))
t=t.replace('@main(','@rattle_main(').replace('define i32 @rattle_main','define internal i32 @rattle_main')
i=t.index('\ndefine ')
t=t[:i+1]+'\n'.join(out)+t[i:]
open(room+'/module.ll','w').write(t)
print(len(out),'wrappers')
